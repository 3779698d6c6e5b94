"""Fill the column expect of a table with what the program does now, for a person to read and keep.

    mutants approve [OPTION..] PROGRAM.f TESTS.csv

A cell `expect` that is empty gets the values that the program leaves on the test, as `check` reads them; the column,
and a row of names, are made where there is none. Each outcome is shown: it is the program's own, right or wrong, so
read it before the table is kept. From then on `check` tells each test on which the program does something else.

What stands in a cell already stays, and where the program does something else this is said, with status 4. --renew
fills all cells anew. The table takes its own place, or that of FILE of --table.
"""

import argparse
import sys
from pathlib import Path

from mutants.checks.checking import dummies_of, printed_of
from mutants.checks.outcomes import asked_outcomes, differences
from mutants.checks.running import Means
from mutants.checks.settings import READING, assert_tests, with_settings
from mutants.english import plural
from mutants.files import written
from mutants.jobs.approving import filled
from mutants.jobs.making import Made, add_reading_options, made_of, wish_of
from mutants.pages.suite import titled
from mutants.program.finding import add_mothra_option, find_program
from mutants.statuses import SUCCESS, UNEXPECTED
from mutants.subcommands.check import add_options
from mutants.texts.decoding import decoded
from mutants.texts.jobs import Job
from mutants.words import add_mothra_options, tell_remarks, visible

LOOK = "What a program does is its own outcome, right or wrong: read each before you keep it."


def add_words(parser: argparse.ArgumentParser) -> None:
    parser.add_argument("program", metavar="PROGRAM.f", type=Path)
    parser.add_argument("tests", metavar="TESTS.csv", type=Path, nargs="?", help="a table of tests in CSV")
    add_mothra_option(parser)
    add_reading_options(parser)
    add_mothra_options(parser, "steps")
    parser.add_argument("--renew", action="store_true", help="fill all cells anew")
    parser.add_argument("--table", metavar="FILE", type=Path, help="write the table there, and not in its own place")


def cells_of(made: Made, is_anew: bool) -> dict[int, str]:
    """The texts that the cells have already, by the numbers of the tests."""
    expected = made.table.expected if made.table and not is_anew else {}
    return {number: cell for number, cell in expected.items() if cell.strip()}


def run(given: argparse.Namespace, name: str) -> int:
    with_settings(given, given.program, add_options, READING)
    assert_tests(given)
    if given.tests.suffix.lower() != ".csv":
        raise ValueError(f"{given.tests}: a table in JSON has no column expect; write it as CSV")
    made = made_of(given.program, given.tests, wish_of(given))
    tell_remarks(name, made.remarks)
    means, job = Means(find_program(given.mothra), given.steps), Job(made.source.text, made.suite)
    names = dummies_of(printed_of(means.program, given.program, job, made.source.shown))
    assert made.table
    outcomes, cells = asked_outcomes(job, means, name), cells_of(made, given.renew)
    new = {at: line.removeprefix("RETURNED ") for at, line in enumerate(outcomes, 1) if at not in cells}
    path = given.table or given.tests
    written(path, filled(decoded(given.tests.read_bytes()), made.table, names, new).encode())
    lines = [f"{path}: {plural(len(new), 'cell')} expect filled with what the program does now. {LOOK}"]
    lines += [f"  test {at}  {titled(job.suite[at - 1], at, made.titles)}: {outcome}" for at, outcome in new.items()]
    unmet = differences(cells, outcomes, names)
    lines += [f"NOT AS EXPECTED: test {each.test}: {each.outcome}, expected {each.expected}" for each in unmet]
    sys.stdout.write(visible("\n".join(lines) + "\n"))
    return UNEXPECTED if unmet else SUCCESS
