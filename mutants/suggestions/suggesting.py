"""Suggestions: the search, the choice among what it found, and the last run, whose verdicts are shown."""

from collections.abc import Iterator
from contextlib import contextmanager
from random import Random
from typing import NamedTuple

from mutants.checks.checking import Checked, dummies_of
from mutants.checks.choice import restricted
from mutants.checks.outcomes import asked_outcomes
from mutants.checks.running import Means, asked_in_parts
from mutants.declarations.proofs import Proofs
from mutants.jobs.setting import only_set
from mutants.pages.cover import smallest_set
from mutants.pages.suite import killers_of
from mutants.program.calling import OutOfTime
from mutants.progress import Paced
from mutants.suggestions.aims import Aim, kept_of
from mutants.suggestions.asking import Asker
from mutants.suggestions.box import BoxSearch, box_of
from mutants.suggestions.choosing import Choice
from mutants.suggestions.clock import Clock
from mutants.suggestions.covering import BRANCHES
from mutants.suggestions.proving import Ask, Proving
from mutants.suggestions.reaching import Reached, reached_of
from mutants.suggestions.rounds import Search
from mutants.suggestions.shapes import Row, Shape, row_of, test_of
from mutants.suggestions.values import constants_of
from mutants.texts.dummies import read_unit, zero_of
from mutants.texts.jobs import Job


class Suggested(NamedTuple):
    """The result of a search. `start` is the check of the tests, `final` that of the tests and the rows, which come
    last.

    `proving` is what came of proofs that failed. `needless` has the numbers, from 1, of tests that are needless after
    that.
    """

    start: Checked
    final: Checked
    rows: list[Row]
    search: Search
    proving: Proving
    reached: Reached
    needless: list[int]
    is_cut: bool


def first_row(checked: Checked) -> Row:
    """A row of zeros and .FALSE., for a table that has no test."""
    return row_of(map(zero_of, read_unit(checked.job.source)[1]))


def checked_with(start: Checked, proofs: Proofs, rows: list[Row], means: Means, name: str) -> Checked:
    """The check of the tests and these rows, run with all operators that are asked for, and with these proofs."""
    proved = [each for each in proofs.names if each not in start.job.equivalent]
    if not rows and not proved:
        return start
    tests = list(map(test_of, rows))
    job = start.job._replace(suite=[*start.job.suite, *tests], equivalent=[*start.job.equivalent, *proved])
    totals = {op: count.total for op, count in start.whole.counts.items()}
    whole = asked_in_parts(job, totals, means, name)
    report = whole if len(start.listed) == len(whole.rows) else restricted(whole, start.listed)
    outcomes = [*start.outcomes, *asked_outcomes(Job(job.source, tests), means, None)]
    said = start.said._replace(proofs=proofs)
    return start._replace(job=job, report=report, whole=whole, outcomes=outcomes, said=said)


def needless_in(checked: Checked) -> list[int]:
    """The numbers, from 1, of tests without which the others kill as much."""
    kept, _ = smallest_set([killers_of(row.bits) for row in checked.whole.rows], BRANCHES)
    return [place + 1 for place in range(len(checked.job.suite)) if place not in kept]


class Suggesting:
    """A search, which Ctrl-C ends early. What was found until then is shown all the same."""

    def __init__(self, start: Checked, aim: Aim, means: Means, clock: Clock, paced: Paced, ask: Ask) -> None:
        self.start, self.aim, self.means, self.paced = start, aim, means, paced
        self.tests = [row_of(test) for test in start.job.suite]
        suite = self.tests or [first_row(start)]
        names = dummies_of(start.printed)
        only = [names.index(name) for name in only_set(start.job.source, names)]
        shape = Shape(suite, constants_of(start.printed), kept_of(aim, names, self.tests), only)
        asker = Asker(start, start.report.survivors, means, clock)
        kind = BoxSearch if aim.within else Search
        self.search = kind(asker, shape, suite, Random(aim.seed), aim.rounds)
        if isinstance(self.search, BoxSearch):
            self.search.put(box_of(aim.within, start.job.source, dummies_of(start.printed)))
        self.proving = Proving(self.search, ask)
        self.reached, self.is_cut = Reached(), False

    def tell(self, text: str) -> None:
        clock = self.search.clock
        of_time = "" if clock.seconds is None else f", {clock.passed():.0f} of {clock.seconds:g} s"
        self.paced.tell(f"{text}{of_time}")

    def rows(self) -> list[Row]:
        """The rows that are chosen."""
        with self.cut_short():
            self.search.begin(self.tests, self.start.seconds / max(len(self.tests), 1))
            self.proving.go(self.tell)
            self.search.go(self.tell)
        choice = Choice(self.search)
        try:
            with self.cut_short():
                if not self.is_cut:
                    self.better(choice)
        finally:
            self.paced.progress.end()
        return self.in_order(choice)

    @contextmanager
    def cut_short(self) -> Iterator[None]:
        """Inside this context Ctrl-C, or a call that takes too long, ends only what is going on."""
        try:
            yield
        except KeyboardInterrupt:
            self.is_cut = True
        except OutOfTime:
            pass

    def in_order(self, choice: Choice) -> list[Row]:
        """The chosen rows, those with far values last, and of others those first that kill most."""
        shape, kills = self.search.shape, choice.exact
        return sorted(choice.chosen, key=lambda row: (not shape.is_near(row), -kills[row].bit_count(), row))

    def better(self, choice: Choice) -> None:
        """Chooses among more rows, makes these simpler, and asks which rows come to the survivors that are left."""
        if not self.aim.within:
            choice.widen()
            choice.simplify(self.tell)
        left = self.search.asker.of_mask(~choice.wanted & ~self.search.proved)
        self.reached = reached_of(self.search, {mutant.line for mutant in left}, self.means, self.paced.progress.name)


def suggested(start: Checked, aim: Aim, means: Means, clock: Clock, name: str, ask: Ask) -> Suggested:
    """Searches, and runs the tests with the rows that are chosen. `ask` asks again what is proved."""
    course = Suggesting(start, aim, means, clock, Paced(name), ask)
    rows = course.rows() if start.report.survivors else []
    proving = course.proving
    final = checked_with(start, proving.proofs, rows, means, name)
    needless = needless_in(final) if aim.drops and rows else []
    kept = [row for number, row in enumerate(rows, len(course.tests) + 1) if number not in needless]
    if len(kept) < len(rows):
        # A new row that a smaller set does not need is not suggested.
        rows, final = kept, checked_with(start, proving.proofs, kept, means, name)
    old = [number for number in needless if number <= len(course.tests)]
    return Suggested(start, final, rows, course.search, proving, course.reached, old, course.is_cut)
