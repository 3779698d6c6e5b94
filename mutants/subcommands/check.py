"""Run the mutants of a program on its tests, and tell the score, the survivors, and what else a tester asks.

    mutants check [OPTION..] PROGRAM.f TESTS.json|TESTS.csv
    mutants check [OPTION..] [PROGRAM.f|FOLDER]

The program is in fixed form, the table as `mutants job` takes it, of any length: suites of more than 256 tests are run
in batches, and long jobs in parts, side by side on all processors, or by GNU parallel on the machines of --sshlogin.
Shown are: the score; what changed since the last check that was asked the same, or since the file of --baseline; the
lines of the program with most survivors; and where the page lies, which is that of `mutants page`: PROGRAM.html beside
the program, or FILE of --page. --all tells all survivors, with what each changes, what the program itself does on each
test, and the tests that kill nothing which no other kills.

--json, --csv, --junit and --sarif write the mutants for other programs: in the JSON that Stryker, Infection and PIT
share for mutation reports, as a table, as test cases by line, and for the annotations of forges. --markdown writes a
summary.

A table in CSV may have a column `expect`, with a header that names the other columns. It says what the program has to
do on the test: the outcome as `mothra exec` writes it, the word RETURNED left out at will and * for any value, such as
3 4 5 *, or the values of some arguments, such as ITYPE=1; an empty cell expects nothing. --expect FILE has a line for
each test in place of it. An outcome that is not as expected is reported, and the exit status is 4.

Where the program equivalents is there, it is asked which mutants are equivalent by a proof. These are declared by
themselves, with the reason that they are proved: the score does not count them, and is given with and without them. A
line says how many mutants are killed, proved equivalent, and undecided, which is neither: mutants suggest decides more.
They are folded, on the terminal to one line, which --show-proved unfolds. What a person declares stands apart.
--no-proofs asks for no proofs. A proof with steps to spare is of these tests and this limit on steps: the mutant may
take so many steps more, and each test leaves room for them. Where equivalents stopped at its bound of work, the check
says for how many mutants: more of these may be equivalent.

Options that are always the same can stand in mutants.ini beside the program (or mutants.toml), in its section
[mutants], by the same names: `fail-under = 80`. What the command line says comes first. A section of its own for a
program has the keys `source` and `tests` and its options: then PROGRAM.f alone is enough, and FOLDER, or no word at
all, checks all of them. The exit status is the worst, and mutants.html in the folder leads to their pages.
"""

import argparse
import sys
from pathlib import Path

from mutants.caches import caches_folder, keep
from mutants.checks.checking import Checked
from mutants.checks.choice import ranges_in
from mutants.checks.coverage import covering
from mutants.checks.settings import assert_tests, with_settings
from mutants.checks.threshold import add_threshold, below_lines, is_below
from mutants.checks.starting import Start, start_of
from mutants.checks.summary import TOP, Telling, summary
from mutants.colours import painted
from mutants.comparisons.reading import read_state
from mutants.comparisons.since import KEPT, Since, bytes_of, kept_path, kept_state, since, state_of
from mutants.declarations.proofs import Proofs
from mutants.declarations.proving import add_proofs_switch
from mutants.exports.folder import Done, Folder, assert_for_many
from mutants.exports.outputs import Shown, outputs_of, page_of, write_outputs
from mutants.jobs.making import add_making_options
from mutants.operators import chosen_codes
from mutants.program.finding import add_equivalents_option, add_mothra_option
from mutants.program.unproved import remark_on
from mutants.statuses import BELOW, NEWLY_SURVIVING, SUCCESS, UNEXPECTED
from mutants.texts.reports import summed
from mutants.words import add_mothra_options, add_operators, number_from_1, read_by


def add_choices(parser: argparse.ArgumentParser) -> None:
    """Adds the options that say which mutants are asked about."""
    add_operators(parser)
    text = "mutants of the statements on these lines alone, as 10-20,25"
    parser.add_argument("--lines", metavar="A-B", type=read_by(ranges_in), help=text)
    text = "mutants of the statements alone that another version of the program has not"
    older = parser.add_mutually_exclusive_group()
    older.add_argument("--changed", metavar="OLD.f", type=Path, help=text)
    older.add_argument("--since", metavar="REV", help="the same of the program at a revision of git")
    add_making_options(parser)


def add_means(parser: argparse.ArgumentParser) -> None:
    add_mothra_options(parser, "steps", "workers")
    parser.add_argument("--jobs", metavar="N", type=number_from_1, help="how many parts at once, on each machine")
    text = "a machine, as parallel takes it; may be given again"
    parser.add_argument("--sshlogin", metavar="LOGIN", action="append", default=[], help=text)


def add_results(parser: argparse.ArgumentParser) -> None:
    """Adds the options that say what is asked of the result, and where it is written."""
    add_threshold(parser)
    text = "tell what changed since this file of --json; exit status 3 where a mutant that was killed survives"
    parser.add_argument("--baseline", metavar="OLD.json", type=Path, help=text)
    parser.add_argument("--expect", metavar="FILE", type=Path, help="what the program has to do, a line for each test")
    text = f"tell survivors of so many lines, those with most; {TOP} where nothing is said"
    parser.add_argument("--top", metavar="N", type=number_from_1, help=text)
    text = "tell all survivors with what each changes, the program's outcome on each test, and tests that add nothing"
    parser.add_argument("--all", action="store_true", help=text)
    parser.add_argument("--show-proved", action="store_true", help="tell each mutant that is proved equivalent")
    parser.add_argument("--page", metavar="FILE", type=Path, help="where the page is written, else PROGRAM.html")
    parser.add_argument("--no-page", action="store_true", help="write no page")
    for option, text in (
        ("report", "the report as mothra run has it, of all that ran"),
        ("json", "all mutants, in the JSON that tools of mutation testing share"),
        ("csv", "a table of all mutants"),
        ("junit", "a report of tests, with a test case for each line that has mutants"),
        ("markdown", "a summary in Markdown, for a build or a review"),
        ("sarif", "the survivors in SARIF, which forges show beside the lines"),
    ):
        parser.add_argument(f"--{option}", metavar="FILE", type=Path, help=f"write {text}")


def add_options(parser: argparse.ArgumentParser) -> None:
    add_choices(parser)
    add_means(parser)
    add_proofs_switch(parser)
    add_results(parser)


def add_words(parser: argparse.ArgumentParser) -> None:
    text = "a program in fixed form; a folder, or no word, stands for all programs that its mutants.ini or .toml names"
    parser.add_argument("program", metavar="PROGRAM.f", type=Path, nargs="?", help=text)
    text = "a table of tests, .json or .csv; else the one that the file of options names"
    parser.add_argument("tests", metavar="TESTS", type=Path, nargs="?", help=text)
    add_mothra_option(parser)
    add_equivalents_option(parser)
    add_options(parser)


def status_of(checked: Checked, is_below: bool, is_lost: bool) -> int:
    """4 where the program does not do what is expected, else 3 where the score is below what is asked for, or where a
    mutant survives that was killed."""
    if checked.unexpected:
        return UNEXPECTED
    return BELOW if is_below else NEWLY_SURVIVING if is_lost else SUCCESS


def end_lines(proofs: Proofs, settings: Path | None, remark: str) -> list[str]:
    """The last lines: what was not asked for proofs, which file of options was read, and that a build is unproved."""
    lines = [proofs.left_open(), f"Options are from {settings}, too." if settings else "", proofs.remark, remark]
    return [each for each in lines if each]


def last_check(start: Start, checked: Checked) -> list[Since]:
    """What changed since the last check that was asked the same, if anything did. The state of this check takes the
    place of that one's."""
    asked, folder = start.asked, caches_folder("checks")
    if folder is None or not asked.tests.is_file():
        return []
    files = [asked.program.resolve(), asked.tests.resolve(), checked.report.unit]
    path = kept_path(folder, [*files, chosen_codes(asked.ops, asked.without), asked.ranges, asked.old, asked.since])
    old = kept_state(path)
    keep(path, bytes_of(state_of(checked)), KEPT)
    changes = [since("the last check", old, checked)] if old else []
    return [each for each in changes if each.changes]


def done_of(given: argparse.Namespace, name: str) -> Done:
    """The check of one program, with all files that are asked for."""
    settings = with_settings(given, given.program, add_options)
    assert_tests(given)
    outputs = outputs_of(given)
    baseline = read_state(given.baseline) if given.baseline else None
    start = start_of(given, name)
    checked = start.checked(name)
    changes = [since(str(given.baseline), baseline, checked)] if baseline else last_check(start, checked)
    remark = remark_on(start.means.program)
    covered = covering(checked, start.means, name) if any(output.needs_cover for output in outputs) else {}
    changed = [line for each in changes for line in each.lines()]
    count = summed(checked.report.counts.values())
    below = below_lines(count, given.fail_under)
    shown = Shown(checked, given.program, given.tests, remark, covered, changed)
    more = [*write_outputs(outputs, shown), *below]
    more += end_lines(checked.said.proofs, settings, remark)
    telling = Telling(given.top or TOP, given.all, given.show_proved)
    text = summary(checked, given.program, more, telling, changed)
    is_lost = baseline is not None and any(each.lost for each in changes)
    status = status_of(checked, is_below(count, given.fail_under), is_lost)
    return Done(checked, text, status, None if given.no_page else page_of(given), remark, changed)


def check_folder(given: argparse.Namespace, name: str) -> int:
    """Checks all programs of a folder; the status is the worst."""
    if given.tests:
        raise ValueError(f"{given.program}: it is a folder, whose file of options names the tests")
    assert_for_many(given)
    folder = Folder(given, given.program or Path(), name)
    for line in folder.lines(done_of):
        sys.stdout.write(painted(f"{line}\n"))
        sys.stdout.flush()
    if not given.no_page:
        folder.write_page()
        sys.stdout.write(f"The page: {folder.page}\n")
    return folder.status


def run(given: argparse.Namespace, name: str) -> int:
    if given.program is None or given.program.is_dir():
        return check_folder(given, name)
    done = done_of(given, name)
    sys.stdout.write(painted(done.text))
    return done.status
