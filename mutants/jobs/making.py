"""The job of a program in fixed form and a table of its tests, as a value and as a text."""

import argparse
import json
from collections.abc import Callable, Sequence
from pathlib import Path
from typing import Any, NamedTuple

from mutants.declarations.files import NONE_MEANT, Meant, existing_beside, meant_by, read_declarations
from mutants.files import bytes_of
from mutants.jobs.fitting import fit, sizes_remarks
from mutants.jobs.setting import zeros_of
from mutants.jobs.sizes import read_sizes
from mutants.jobs.sources import Source, Wish, source_of
from mutants.jobs.tables import Table, read_table, titles_of
from mutants.program.calling import naming
from mutants.texts.cards import cards_of
from mutants.texts.dummies import read_head
from mutants.words import read_by

# The limits of a job: its tests, and its bytes.
TESTS, BYTES = 256, 1_048_576


class Made(NamedTuple):
    """A job before it is written: its source, the table of its tests where there is one, and remarks on them."""

    source: Source
    table: Table | None
    remarks: list[str]

    @property
    def suite(self) -> list[list[Any]]:
        return self.table.tests if self.table else []

    @property
    def titles(self) -> list[str]:
        """The names of the tests, where a column of the table has them."""
        return titles_of(self.table) if self.table else []

    def text(self, equivalent: Sequence[str] | None = None, suite: Sequence[Any] | None = None) -> str:
        """The job in JSON, with these declared mutants; another suite may stand in the place of its own."""
        tests = self.suite if suite is None else suite
        members = ['"source": ' + json.dumps(self.source.text)]
        if self.table or suite is not None:
            members.append('"suite": [\n' + ",\n".join("  " + json.dumps(test) for test in tests) + "\n]")
        members += ['"equivalent": ' + json.dumps(list(equivalent))] if equivalent is not None else []
        return "{" + ",\n".join(members) + "}\n"


def dummies_of(source: str) -> list[str] | None:
    """The names of the dummy arguments; None where the source does not begin with SUBROUTINE."""
    cards = cards_of(source)
    try:
        return read_head(cards[0].text if cards else "")[1]
    except ValueError:
        return None


def made_of(program: Path, tests: Path | None = None, wish: Wish = Wish()) -> Made:
    """The job of these files; ValueError names the file that can not be used, and says why.

    The program, too, reports a source that does not begin with SUBROUTINE, so no table is read for it.
    """
    with naming(program):
        source = source_of(bytes_of(program), wish)
    made = Made(source, None, [f"{program}: {remark}" for remark in source.remarks])
    return made if tests is None else with_table(made, tests, wish)


def with_table(made: Made, path: Path, wish: Wish = Wish()) -> Made:
    """The job of a program with the table of a file."""
    source, dummies = made.source, dummies_of(made.source.text)
    if dummies is None:
        return made
    with naming(path):
        table = read_table(path, dummies, zeros_of(source.text, dummies))
        fitted = fit(source, table, dummies, wish.sizes) if wish.sizes else []
    remarks = [*table.remarks, *fitted, *sizes_remarks(source, table, dummies)]
    return Made(source, table, made.remarks + [f"{path}: {each}" for each in remarks])


def meant_for(
    made: Made, program: Path, equivalent: Path | None, mothra: Callable[[], str | None], looks_beside: bool = True
) -> Meant:
    """What is declared for a job: by a file that is named, else by the one beside the program.
    Mothra is asked if needed."""
    path = equivalent or (existing_beside(program, made.source.unit) if looks_beside else None)
    if path is None:
        return NONE_MEANT
    declarations = read_declarations(path)
    # The tests do not matter here, and there may be more of them than a job takes.
    return meant_by(declarations, mothra() if declarations.entries else "", made.text(suite=[]).encode())


def whole_text(made: Made, equivalent: Sequence[str] | None = None) -> str:
    """The text of a job that has to have all its tests at once; ValueError says what is above a limit."""
    text = made.text(equivalent)
    if len(made.suite) > TESTS:
        raise ValueError(f"the table has {len(made.suite)} tests, and a job takes {TESTS}")
    size = len(text.encode())
    if size > BYTES:
        raise ValueError(f"the job has {size:,} bytes, and {BYTES:,} are the limit: leave out tests or comments")
    return text


def add_reading_options(parser: argparse.ArgumentParser) -> None:
    """The options that say how a program is read."""
    parser.add_argument("--unit", metavar="NAME", help="the unit, where the file has several; lines keep their numbers")
    parser.add_argument("--size", metavar="N=8,..", type=read_by(read_sizes), help="values of adjustable bounds")
    text = "read tabs as blanks: the first of a line leads to column 7"
    parser.add_argument("--expand-tabs", action="store_true", help=text)


def add_making_options(parser: argparse.ArgumentParser) -> None:
    """The options that say how a program is read, and what is declared."""
    add_reading_options(parser)
    declared = parser.add_mutually_exclusive_group()
    text = "the mutants declared equivalent, .csv or a list in .json; else those of PROGRAM.equivalent.csv"
    declared.add_argument("--equivalent", metavar="FILE", type=Path, help=text)
    declared.add_argument("--undeclared", action="store_true", help="declare no mutant")


def wish_of(given: argparse.Namespace) -> Wish:
    return Wish(given.unit, given.size or {}, given.expand_tabs, "size" in getattr(given, "from_file", ()))
