"""The mutants of a check, each with what other programs read of it; and as a table in CSV, a row each."""

from collections.abc import Iterator, Mapping
from typing import NamedTuple

from mutants.checks.checking import Checked
from mutants.declarations.proofs import PROVED
from mutants.texts.lines import Mutant
from mutants.texts.proofs import meaning_of
from mutants.texts.reports import Row, tests_in
from mutants.texts.separated import row_text
from mutants.texts.twins import name_of, names_text, others_by_name

COLUMNS = "mutant operator line status declared proof before after killed_by covered_by twins".split()


class Record(NamedTuple):
    """A mutant, its statement, its status, whether it is declared equivalent, the tests that kill it and come to it,
    the names of those that are the same program, and what is proved of it where it is declared by that alone."""

    mutant: Mutant
    before: str
    status: str
    is_declared: bool
    killed_by: list[int]
    covered_by: list[int]
    twins: str = ""
    proof: str = ""

    @property
    def name(self) -> str:
        return name_of(self.mutant)


def status_of(row: Row, covered: str) -> str:
    """The status, named as in mutation reports of other tools."""
    if row.status in "KW":
        return "Killed"
    if row.status == "E":
        return "Ignored"
    return "Survived" if "1" in covered else "NoCoverage"


def records_of(checked: Checked, covered: Mapping[int, str]) -> Iterator[Record]:
    """The record of each mutant, in the order of the report;
    `covered` has for each line the tests that come to it."""
    others, proofs = others_by_name(checked.listed), checked.said.proofs
    for mutant, row in zip(checked.listed, checked.report.rows):
        bits, twins = covered[mutant.line], names_text(others.get(name_of(mutant), []))
        before, status = checked.statements[mutant.line], status_of(row, bits)
        proof = meaning_of(proofs.spares[name_of(mutant)]) if proofs.is_alone(name_of(mutant)) else ""
        numbers = tests_in(row.bits), tests_in(bits)
        yield Record(mutant, before, status, row.status in "EW", *numbers, twins, proof)


def table_text(checked: Checked, covered: Mapping[int, str]) -> str:
    """The table of the mutants."""
    lines = [row_text(COLUMNS)]
    for each in records_of(checked, covered):
        tests = [" ".join(map(str, numbers)) for numbers in (each.killed_by, each.covered_by)]
        declared = PROVED if each.proof else "yes" if each.is_declared else "no"
        row = [each.name, each.mutant.op, each.mutant.line, each.status, declared, each.proof]
        lines.append(row_text([*row, each.before, each.mutant.text, *tests, each.twins]))
    return "".join(lines)
