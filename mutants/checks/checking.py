"""A check: what is said of a program and its tests is asked of the programs mothra and equivalents."""

import time
from collections.abc import Sequence
from pathlib import Path
from typing import NamedTuple

from mutants.checks.choice import Choice, choose, lines_changed, lines_within, restricted, totals_of
from mutants.checks.faults import naming_line
from mutants.checks.outcomes import Difference, asked_outcomes, differences
from mutants.checks.revisions import bytes_at
from mutants.checks.running import Means, asked_in_parts
from mutants.declarations.boxes import kept_boxes
from mutants.declarations.proving import NO_PROVER, Prover
from mutants.declarations.said import NOTHING, Said
from mutants.english import joined_words
from mutants.jobs.expecting import Expected
from mutants.jobs.making import made_of
from mutants.jobs.sources import Wish, source_of
from mutants.operators import NAMES, chosen_codes
from mutants.program.asking import asked_list, asked_print
from mutants.program.calling import naming
from mutants.progress import Progress, telling
from mutants.texts.batches import batch_text
from mutants.texts.jobs import Job
from mutants.texts.lines import Mutant
from mutants.texts.prints import statements_by_line
from mutants.texts.reports import Report

# The limit on steps where none is given.
STEPS = 10000


class Asked(NamedTuple):
    """What a check is asked about: its files, the operators (None: all), lines, an older version of the program, and
    how programs are read."""

    program: Path
    tests: Path
    ops: list[str] | None
    without: list[str]
    ranges: list[tuple[int, int]] | None
    old: Path | None
    wish: Wish = Wish()
    # A revision of git, in the place of the older version.
    since: str | None = None


class Checked(NamedTuple):
    """The result of a check. The list and the report have the mutants that were asked about; `whole` has all that ran.

    `expected` is the number of tests that say what the program has to do. `file` is the text of the file that the
    source is from, with its tabs and its other units. `seconds` is how long the run of the mutants took.
    """

    job: Job
    printed: list[str]
    statements: dict[int, str]
    listed: list[Mutant]
    report: Report
    whole: Report
    left_out: list[str]
    outcomes: list[str]
    unexpected: list[Difference]
    # The source as it is shown, the reasons of declared mutants, and remarks.
    said: Said = NOTHING
    expected: int = 0
    file: str = ""
    seconds: float = 0.0

    @property
    def shown(self) -> str:
        return self.said.shown_for(self.job)


def dummies_of(printed: Sequence[str]) -> list[str]:
    """The names of the dummy arguments, in order."""
    _, _, names = printed[0].partition("(")
    return names.rstrip(")").split(",") if names else []


def source_alone(job: Job) -> bytes:
    return batch_text(Job(job.source, []))


def printed_of(program: str, path: Path, job: Job, shown: str) -> list[str]:
    """The printed text of each statement. A fault has the line as it is shown."""
    with naming_line(path, job.source, shown):
        return asked_print(program, source_alone(job))


def words_of_ops(asked: Asked) -> list[str]:
    """The words for the operators that are asked for; none where all are."""
    ops = chosen_codes(asked.ops, asked.without)
    return ["--ops", ",".join(ops)] if len(ops) < len(NAMES) else []


def words_of_proofs(asked: Asked, means: Means) -> list[str]:
    """The words for the program equivalents: the operators, and the limit on steps."""
    return [*words_of_ops(asked), *means.step_words]


def changed_of(program: str, asked: Asked, job: Job, printed: Sequence[str]) -> tuple[set[int], str]:
    """The lines that the older version does not have, and why the others are left out."""
    path = asked.old or asked.program
    if asked.since is not None:
        source = source_of(bytes_at(path, asked.since), asked.wish)
    else:
        source = made_of(path, None, asked.wish).source
    old = printed_of(program, path, Job(source.text, []), source.shown)
    lines = lines_changed(job.source, printed, source.text, old)
    where = str(path) if asked.since is None else f"{path} at {asked.since}"
    return lines, f"of statements that are the same in {where}"


def chosen(program: str, asked: Asked, job: Job, printed: Sequence[str], listed: Sequence[Mutant]) -> Choice:
    """The mutants of the lines that are asked about."""
    choice = Choice(list(listed), [])
    if asked.ranges is not None:
        choice = choose(choice, lines_within(job.source, asked.ranges), "of other lines than those of --lines")
    if asked.old is not None or asked.since is not None:
        choice = choose(choice, *changed_of(program, asked, job, printed))
    return choice


def listed_of(program: str, asked: Asked, job: Job, shown: str) -> tuple[dict[str, int], list[Mutant]]:
    with naming_line(asked.program, job.source, shown):
        return asked_list(program, words_of_ops(asked), source_alone(job))


def ops_left_out(asked: Asked) -> list[str]:
    """Which operators are left out, named in as few words as possible."""
    kept = chosen_codes(asked.ops, asked.without)
    rest = [op for op in NAMES if op not in kept]
    if not rest:
        return []
    names = f"all operators but {joined_words(kept)}" if len(kept) < len(rest) else joined_words(rest)
    return [f"the mutants of {names}"]


def ran(job: Job, printed: Sequence[str], totals: dict[str, int], means: Means, name: str) -> Report:
    """The report on these operators, of which there may be none."""
    if totals:
        return asked_in_parts(job, totals, means, name)
    unit = printed[0].removeprefix("SUBROUTINE ").partition("(")[0]
    return Report(unit, len(job.suite), int(means.steps or STEPS), 1, {}, [], [])


def with_proofs(
    words: Sequence[str], job: Job, said: Said, listed: Sequence[Mutant], prover: Prover, name: str
) -> tuple[Job, Said]:
    """The job, with the mutants declared that are proved equivalent, and what is said of it. `words` are the words for
    the program equivalents."""
    progress = Progress(name)
    with telling(progress, f"asking which of {len(listed)} mutants are proved equivalent" if prover.program else ""):
        proofs = prover.proofs(words, job, listed)
    declared = [*job.equivalent, *proofs.names]
    return job._replace(equivalent=declared), said._replace(proofs=proofs)


class Given(NamedTuple):
    """A job, what is known beside it, and what is expected of its program."""

    job: Job
    said: Said
    expected: Expected


def check(asked: Asked, given: Given, means: Means, name: str, prover: Prover = NO_PROVER) -> Checked:
    """Makes the check. Where the program or a test can not be run, this is reported before mutants are run."""
    job, said, expected = given
    program, shown = means.program, said.shown_for(job)
    printed = printed_of(program, asked.program, job, shown)
    names = dummies_of(printed)
    totals, listed = listed_of(program, asked, job, shown)
    choice = chosen(program, asked, job, printed, listed)
    with naming(asked.tests):
        outcomes = asked_outcomes(job, means, name)
    with naming(expected.path):
        unexpected = differences(expected.texts, outcomes, names)
    job, said = with_proofs(words_of_proofs(asked, means), job, said, listed, prover, name)
    said = said._replace(boxes=kept_boxes(program, job.source, int(means.steps or STEPS)))
    is_whole, begun = len(choice.listed) == len(listed), time.monotonic()
    whole = ran(job, printed, totals if is_whole else totals_of(totals, choice.listed), means, name)
    seconds = time.monotonic() - begun
    report = whole if is_whole else restricted(whole, choice.listed)
    left_out = ops_left_out(asked) + choice.left_out
    statements = statements_by_line(job.source, printed)
    number = sum(bool(text.strip()) for text in expected.texts.values())
    answers = job, printed, statements, choice.listed, report, whole, left_out, outcomes, unexpected
    return Checked(*answers, said=said, expected=number, seconds=seconds)
