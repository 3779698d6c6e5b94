"""Compare two states of a program and its tests: what is newly killed, and what was killed and survives.

    mutants compare [--markdown] OLD.json NEW.json
    mutants compare [--markdown] OLD.report NEW.report
    mutants compare [--markdown] --jobs OLD-JOB.json NEW-JOB.json OLD.report NEW.report

Two files of `mutants check --json` are of one program or of two versions of it. A mutant is found by the text of its
statement and by what it makes of it: its number and its line do not matter. A test is found by its values.

Two reports of `mothra run` (or of `mutants check --report`) have no texts of killed mutants. So their mutants are
matched by number, which is refused where the lists are not the same, and their tests by number too. With the jobs that
the reports are of, mothra is asked for all texts, and reports are compared as files of --json are.

Shown are: mutants newly surviving and newly killed; those of one state alone, new and gone; those declared equivalent
since then, or no more; and tests that are new, gone, or kill others than before. Where operators are in one file alone,
their mutants are left out. --markdown writes the same for a review.

--ops and --except choose the operators that are compared. mutants.ini (or mutants.toml) beside NEW has these and
fail-under: in [mutants], and in the section of the program whose key json or report names NEW.

The exit status is 3 where the score of NEW is below that of --fail-under, and where a mutant that was killed
survives, whether a person declares it equivalent or not. One that is proved equivalent now is counted apart: no test
can kill it any more, or none of its own tests where the proof is one with steps to spare.
"""

import argparse
import sys
from pathlib import Path

from mutants.checks.settings import with_settings
from mutants.checks.threshold import add_threshold, below_lines, is_below
from mutants.comparisons.comparing import compared, with_ops
from mutants.comparisons.markdown import comparison_markdown
from mutants.comparisons.reading import is_mutation_report, read_state, read_state_with_job
from mutants.comparisons.states import State, count_of
from mutants.comparisons.summary import comparison_text
from mutants.operators import chosen_codes
from mutants.program.calling import text_of
from mutants.program.finding import add_mothra_option, find_program
from mutants.statuses import BELOW, NEWLY_SURVIVING, SUCCESS
from mutants.subcommands.check import add_options
from mutants.words import add_operators, visible

# What a comparison takes from a file of options; all else in it is for checks.
TAKEN = ("ops", "without", "fail_under")


def add_words(parser: argparse.ArgumentParser) -> None:
    parser.add_argument("old", metavar="OLD", type=Path, help="a report, or a file of check --json")
    parser.add_argument("new", metavar="NEW", type=Path, help="the same of a later state")
    text = "the jobs of two reports, for the texts of all mutants"
    parser.add_argument("--jobs", metavar="JOB", type=Path, nargs=2, help=text)
    parser.add_argument("--markdown", action="store_true", help="write Markdown, for a review")
    add_operators(parser)
    add_threshold(parser)
    add_mothra_option(parser)


def chosen(given: argparse.Namespace, state: State) -> State:
    """What a state says of the operators that are asked for."""
    return with_ops(state, [op for op in state.ops if op in chosen_codes(given.ops, given.without)])


def states_of(given: argparse.Namespace) -> tuple[State, State]:
    """The two states, which are of files of one kind."""
    paths = given.old, given.new
    kinds = [is_mutation_report(text_of(path)) for path in paths]
    if kinds[0] != kinds[1]:
        raise ValueError(f"{given.old} and {given.new} are a report and a file of --json; it takes two of a kind")
    if not given.jobs:
        return read_state(given.old), read_state(given.new)
    if kinds[0]:
        raise ValueError("--jobs are of reports: a file of --json has all texts")
    program = find_program(given.mothra)
    return (
        read_state_with_job(given.old, given.jobs[0], program),
        read_state_with_job(given.new, given.jobs[1], program),
    )


def run(given: argparse.Namespace, name: str) -> int:
    with_settings(given, given.new, add_options, TAKEN)
    comparison = compared(*(chosen(given, state) for state in states_of(given)))
    count = count_of(comparison.new.verdicts)
    below = "".join(f"{line}\n" for line in below_lines(count, given.fail_under))
    if given.markdown:
        sys.stdout.write(comparison_markdown(comparison) + (f"\n{below}" if below else ""))
    else:
        sys.stdout.write(visible(comparison_text(comparison, given.old, given.new) + below))
    if comparison.newly_surviving:
        return NEWLY_SURVIVING
    return BELOW if is_below(count, given.fail_under) else SUCCESS
