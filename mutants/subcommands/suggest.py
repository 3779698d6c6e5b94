"""Suggest tests that kill the survivors of a suite.

    mutants suggest [OPTION..] PROGRAM.f TESTS.json|TESTS.csv

The program and the table are those of `mutants check`, and so are the options that say which mutants are asked about.
Where the program equivalents is there, it is asked for rows first: where it can not prove a mutant equivalent, the
failed proof leads to some. They are run, and where they kill, it is asked again about what is left. Then rows are made
by chance: near those of the table, of constants of the program, of other arguments, and some with values far from the
table's, on which a mutant may overflow. They are run in rounds of 256. Each kill is a verdict of mothra. Rows on which
the program itself fails are left out. Few rows that kill all that was found are chosen and made simpler. Then the table
and they are run once more, and what is said rests on that run: of the mutants that the tests do not kill, how many are
killed by a row, proved equivalent, and undecided.

Shown are: the rows, as the table has them, those with far values apart; for each row what the program does on it, to be
looked at before the row is taken, and the survivors that it kills, by line; and the survivors that no row killed, with
how many of the rows that were tried came to their lines, and at which line each proof was given up. A column `expect`
of the table stays empty in new rows.

An array of numbers that is in order in all tests stays so in all rows, and this is said; --free lifts it. Nothing else
is known of what the arguments have to be: --ranges says it. --within I=-8:8,J=0:9 tries all rows of a box, in order, a
million at most, and no others, and says of each survivor whether a row of the box kills it; an argument that is only
set is 0 there, and a LOGICAL one has both values. The pages of check and page say it too, until the program changes. A
mutant that is proved equivalent is no survivor, and is not searched for. Where a row kills one that is proved with
steps to spare, this is said. --no-proofs asks equivalents for nothing.

With --rounds the same seed gives the same text; with --seconds it depends on the machine. Ctrl-C ends the search, and
what was found until then is shown; the exit status is that of an interrupted command.
"""

import argparse
import sys
from pathlib import Path

from mutants.checks.checking import Checked, dummies_of
from mutants.checks.settings import assert_tests, with_settings
from mutants.checks.starting import start_of
from mutants.declarations.boxes import keep_boxes
from mutants.declarations.proving import add_proof_options
from mutants.english import plural
from mutants.exports.outputs import Output, assert_free
from mutants.files import written
from mutants.jobs.tables import Table
from mutants.program.finding import add_mothra_option
from mutants.program.unproved import remark_on
from mutants.statuses import INTERRUPTED, SUCCESS
from mutants.subcommands import check as checks
from mutants.suggestions.aims import SECONDS, Aim, read_ranges
from mutants.suggestions.box import BoxSearch, box_of
from mutants.suggestions.clock import Clock
from mutants.suggestions.proving import ROWS
from mutants.suggestions.suggesting import Suggested, suggested
from mutants.suggestions.tables import Layout, layout_of, table_with
from mutants.suggestions.summary import summary
from mutants.words import add_mothra_options, number_from_1, read_by, visible


def seconds_word(word: str) -> float:
    """A number of seconds above 0, as an option takes it."""
    try:
        seconds = float(word)
    except ValueError:
        seconds = 0.0
    if not 0 < seconds < 1e6:
        raise ValueError(f"{word} is no number of seconds")
    return seconds


def add_search(parser: argparse.ArgumentParser) -> None:
    """Adds the options that say how long and where is searched."""
    most = parser.add_mutually_exclusive_group()
    text = f"how long the search is, with the last run on top; {SECONDS:g} where nothing is said"
    most.add_argument("--seconds", metavar="N", type=read_by(seconds_word), help=text)
    text = "how many rounds of 256 rows, whatever time they take"
    most.add_argument("--rounds", metavar="N", type=number_from_1, help=text)
    parser.add_argument("--seed", metavar="S", type=number_from_1, default=1, help="where chance begins, else 1")
    text = "arguments by number or name with their least and greatest values, as 2=0:8,KEY=-9:9; may be given again"
    parser.add_argument(
        "--ranges", metavar="ARG=A:B", type=read_by(read_ranges), action="append", default=[], help=text
    )
    text = "try all rows of a box, in order, a million at most: the least and greatest values of arguments, as --ranges"
    parser.add_argument(
        "--within", metavar="ARG=A:B", type=read_by(read_ranges), action="append", default=[], help=text
    )
    text = "an array, by number or name, that need not stay in order; may be given again"
    parser.add_argument("--free", metavar="ARG", action="append", default=[], help=text)
    parser.add_argument("--nice", action="store_true", help="no value far from those of the tests")
    parser.add_argument("--drop", action="store_true", help="tell which tests of the table are needless then")
    text = "write the table with the rows, and with --drop without the needless tests"
    parser.add_argument("--table", metavar="FILE", type=Path, help=text)


def add_words(parser: argparse.ArgumentParser) -> None:
    parser.add_argument("program", metavar="PROGRAM.f", type=Path)
    parser.add_argument("tests", metavar="TESTS", type=Path, nargs="?", help="a table of tests, .json or .csv")
    add_mothra_option(parser)
    add_proof_options(parser)
    checks.add_choices(parser)
    add_mothra_options(parser, "steps", "workers")
    text = "how many parts at once, where a run is in parts"
    parser.add_argument("--jobs", metavar="N", type=number_from_1, help=text)
    add_search(parser)
    # A file beside the program may name other machines for the check. They are not used here.
    parser.set_defaults(expect=None, sshlogin=[])


def aim_of(given: argparse.Namespace) -> Aim:
    """How is searched. With a number of rounds nothing depends on the clock."""
    if given.rounds and given.within:
        raise ValueError("--within tries all rows of a box, and --rounds says nothing then")
    seconds = given.seconds if given.rounds or given.within else given.seconds or SECONDS
    ranges = [each for ranges in given.ranges for each in ranges]
    within = [each for ranges in given.within for each in ranges]
    return Aim(seconds, given.rounds, given.seed, given.nice, ranges, given.free, given.drop, within)


def tell_box(aim: Aim, start: Checked, name: str) -> None:
    """Shows, before the search, how many rows of the box will be tried."""
    if aim.within and start.report.survivors:
        box = box_of(aim.within, start.job.source, dummies_of(start.printed))
        sys.stderr.write(f"{name}: {plural(box.size, 'row')} of the box {box.text} are tried, in order\n")


def assert_table_free(given: argparse.Namespace) -> None:
    """Refuses to write a table that has no folder, or would take the place of a file that is read."""
    reads = [given.program, given.tests, given.expect, given.changed, given.equivalent]
    outputs = [Output("table", given.table, lambda shown: "")] if given.table else []
    assert_free(outputs, [path for path in reads if path is not None and path.is_file()])


def write_table(path: Path, given: argparse.Namespace, table: Table, result: Suggested, layout: Layout) -> str:
    """Writes the table with the rows. The result is a line on it."""
    lines = [layout.line(row) for row in result.rows]
    written(path, table_with(given.tests, table, lines, result.needless).encode())
    return f"The table with the rows: {path}"


def keep_box(result: Suggested, program: str, layout: Layout) -> list[str]:
    """Keeps what all rows of a box say of the survivors, for the pages of later checks. The result is a line on it."""
    search = result.search
    results = search.results(layout) if isinstance(search, BoxSearch) else {}
    is_kept = results and keep_boxes(program, result.start.job.source, search.steps, results)
    return ["Pages of later checks say this under each survivor, until the program changes."] if is_kept else []


def run(given: argparse.Namespace, name: str) -> int:
    aim = aim_of(given)
    settings = with_settings(given, given.program, checks.add_options)
    assert_tests(given)
    assert_table_free(given)
    begun = start_of(given, name)
    # All rows of a box are tried anyway, and no others.
    begun = begun._replace(prover=begun.prover._replace(rows=0 if aim.within else ROWS))
    table = begun.made.table
    start = begun.checked(name)
    assert table
    tell_box(aim, start, name)
    # What comes before, such as proofs, does not count as time of the search.
    result = suggested(start, aim, begun.means, Clock(aim.seconds), name, begun.answer)
    layout = layout_of(given.tests, table, dummies_of(start.printed))
    more = [write_table(given.table, given, table, result, layout)] if given.table else []
    more += keep_box(result, begun.means.program, layout)
    more += checks.end_lines(result.final.said.proofs, settings, remark_on(begun.means.program))
    text = summary(result, given.program, given.tests, layout, aim)
    sys.stdout.write(visible(text + "".join(f"{line}\n" for line in more)))
    return INTERRUPTED if result.is_cut else SUCCESS
