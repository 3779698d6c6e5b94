"""Which tests come to which statement, asked of the program.

A trap in the place of a statement (operator SAN) is killed by the tests that come to the statement. A block IF, ELSE IF
or DO has no such mutant. So 1-0 is put into each of these in a way that changes nothing, and the mutant that has 1/0
there (operator AOR) is killed by the tests that come to it.
"""

import re
from collections.abc import Collection, Iterable, Sequence
from typing import NamedTuple

from mutants.checks.checking import Checked
from mutants.checks.running import Means, asked_in_parts
from mutants.program.asking import asked_list
from mutants.program.calling import Fault
from mutants.texts.batches import batch_text
from mutants.texts.cards import cards_of, lines_of
from mutants.texts.jobs import Job
from mutants.texts.lines import Mutant
from mutants.texts.parentheses import commas
from mutants.texts.reports import Row

TRAP, SAN, AOR = "TRAP", "SAN", "AOR"


class Watched(NamedTuple):
    """A statement with 1-0 in it, and how the mutant begins that has 1/0 there."""

    statement: str
    front: str


def trap_bits(listed: Sequence[Mutant], rows: Iterable[Row]) -> dict[int, str]:
    """The tests that come to each statement that has a trap in its place, a digit each."""
    traps = [mutant for mutant in listed if mutant.op == SAN and mutant.text == TRAP]
    lines: dict[tuple[str, int, int], int] = {mutant[:3]: mutant.line for mutant in traps}
    return {lines[row[:3]]: row.bits for row in rows if row[:3] in lines}


def asked_mutants(job: Job, op: str, means: Means) -> tuple[dict[str, int], list[Mutant]]:
    return asked_list(means.program, ["--ops", op], batch_text(Job(job.source, [])))


def asked_traps(checked: Checked, means: Means, name: str) -> dict[int, str]:
    """The tests that come to each statement that a trap can replace: of the report, or asked of the program."""
    if SAN in checked.whole.counts:
        return trap_bits(checked.listed, checked.whole.rows)
    job = Job(checked.job.source, checked.job.suite)
    totals, listed = asked_mutants(job, SAN, means)
    return trap_bits(listed, asked_in_parts(job, totals, means, name).rows)


def kill_bits(listed: Iterable[Mutant], rows: Iterable[Row], tests: int) -> dict[int, str]:
    """The tests that kill some mutant of each line."""
    by_line: dict[int, int] = {}
    for mutant, row in zip(listed, rows):
        by_line[mutant.line] = by_line.get(mutant.line, 0) | int(row.bits or "0", 2)
    return {line: f"{bits:0{tests}b}" if tests else "" for line, bits in by_line.items()}


def watched(statement: str) -> Watched | None:
    """A block IF, ELSE IF or DO that does the same and has 1-0 in it; None for another statement."""
    block = re.fullmatch(r"((?:ELSE )?IF )\((.*)\) THEN", statement)
    if block:
        return Watched(f"{block[1]}(1-0.EQ.1.AND.({block[2]})) THEN", f"{block[1]}(1/0.EQ.1.AND.")
    loop = re.match(r"DO \d+ \w+=", statement)
    if not loop:
        return None
    rest = statement[loop.end() :]
    # The first parameter goes up to the first comma.
    end = next(iter(commas(rest)), len(rest))
    return Watched(f"{loop[0]}(1-0)*({rest[:end]}){rest[end:]}", f"{loop[0]}1/0*")


def watched_source(checked: Checked) -> tuple[str, dict[int, tuple[int, str]]]:
    """The program with 1-0 in those statements; and by their lines there, their lines and how the mutants begin."""
    lines: list[str] = []
    places = {}
    for card, statement in zip(cards_of(checked.job.source), checked.printed):
        watch = watched(statement)
        if watch:
            places[len(lines) + 1] = card.line, watch.front
        lines += lines_of(card.label, watch.statement if watch else statement)
    return "".join(f"{line}\n" for line in lines), places


def asked_watches(checked: Checked, means: Means, name: str) -> dict[int, str]:
    """The tests that come to each block IF, ELSE IF and DO; no tests where such a statement is too long for 1-0."""
    source, watches = watched_source(checked)
    job = Job(source, checked.job.suite)
    try:
        totals, listed = asked_mutants(job, AOR, means) if watches else ({}, [])
    except Fault:
        return {}
    rows = asked_in_parts(job, totals, means, name).rows if watches else []
    pairs = [(watches[mutant.line], mutant, row) for mutant, row in zip(listed, rows) if mutant.line in watches]
    return {line: row.bits for (line, front), mutant, row in pairs if mutant.text.startswith(front)}


def known_bits(checked: Checked, lines: Collection[int], means: Means, name: str) -> dict[int, str]:
    """For each of the lines a digit for each test, 1 where the test comes there. Other lines may be in the result,
    too."""
    known = {line: "1" * len(checked.job.suite) for line in lines if checked.statements[line].startswith("DATA ")}
    known |= asked_traps(checked, means, name) if set(lines) - set(known) else {}
    known |= asked_watches(checked, means, name) if set(lines) - set(known) else {}
    return known


def covering(checked: Checked, means: Means, name: str) -> dict[int, str]:
    """For each line that has mutants a digit for each test, 1 where it comes to the statement.

    Where this is not known otherwise, these are the tests that kill a mutant of the line.
    """
    lines = {mutant.line for mutant in checked.listed}
    killed = kill_bits(checked.listed, checked.report.rows, len(checked.job.suite))
    known = {**killed, **known_bits(checked, lines, means, name)}
    return {line: known[line] for line in sorted(lines)}
