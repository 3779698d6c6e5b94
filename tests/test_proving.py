"""Rows that failed proofs lead to: which are run, what comes of them, and when it is asked again."""

import unittest
from collections.abc import Sequence
from random import Random
from typing import Any

import running  # noqa: F401  finds the package
from mutants.checks.checking import Checked
from mutants.checks.running import Means
from mutants.declarations.proofs import proofs_of
from mutants.declarations.said import Said
from mutants.program.calling import Fault, OutOfTime
from mutants.suggestions.asking import Asker
from mutants.suggestions.clock import Clock
from mutants.suggestions.proving import TURNS, Proving, in_turns
from mutants.suggestions.rounds import Search
from mutants.suggestions.shapes import Kept, Row, Shape, items_of
from mutants.texts.jobs import Job
from mutants.texts.lines import Mutant
from mutants.texts.proofs import Answer, Candidate, Left, Proof
from mutants.texts.reports import Count, Report

SUITE: list[Row] = [(0, (1, 2))]
MUTANTS = [Mutant("SDL", number, number, 3, "CONTINUE") for number in range(1, 5)]
# From this number on the program fails; and from this one on it takes more steps than a search lets it.
FAILS, SLOW = 1000, 500


def candidate(number: int, value: int, array: Sequence[int] = (1, 2)) -> Candidate:
    """A row that may kill the mutant of this number."""
    return Candidate("SDL", number, number, [value, list(array)])


class Asked(Asker):
    """Where N is not 0, a row kills the mutant N modulo 10, if there is one."""

    def ending(self, rows: Sequence[Row], steps: int) -> list[Row]:
        return [row for row in rows if items_of(row[0])[0] < FAILS]

    def kills(self, rows: Sequence[Row], ops: Sequence[str], steps: int) -> dict[Row, int]:
        numbers = {row: items_of(row[0])[0] for row in rows}
        ended = {row: number for row, number in numbers.items() if number < SLOW or steps == self.steps}
        return {row: 1 << number % 10 - 1 if number % 10 else 0 for row, number in ended.items()}


class Loop(unittest.TestCase):
    def setUp(self) -> None:
        self.jobs: list[Job] = []
        self.answers = [Answer([])]

    def ask(self, job: Job, seconds: float | None) -> Answer:
        self.jobs.append(job)
        return self.answers[min(len(self.jobs), len(self.answers)) - 1]

    def went(
        self,
        *candidates: Candidate,
        left: Sequence[Left] = (),
        kept: Kept = Kept({}, {}),
        seconds: float | None = None,
        passed: float = 0,
    ) -> Proving:
        """What comes of these rows, and of what is answered then."""
        report = Report("S", 1, 10000, 1, {"SDL": Count(4, 0, 0)}, [], [])
        parts: Any = dict.fromkeys(Checked._fields)
        said = Said(proofs=proofs_of(Answer([], 0, list(candidates), list(left))))
        checked = Checked(**{**parts, "job": Job("S", [[0, [1, 2]]]), "whole": report, "said": said})
        asker = Asked(checked, MUTANTS, Means("none"), Clock(seconds))
        asker.clock.begun -= passed
        search = Search(asker, Shape(SUITE, [], kept), SUITE, Random(1), None)
        search.steps = 300
        proving = Proving(search, self.ask)
        proving.go(lambda text: None)
        return proving

    def test_rows_are_run_and_asked_again_with_those_that_kill_before_the_tests(self) -> None:
        self.answers = [Answer([], 2)]
        proving = self.went(candidate(1, 1), candidate(2, 10), candidate(2, 2), candidate(3, FAILS + 3))
        search = proving.search
        self.assertEqual((search.alive, proving.tried, proving.killed, search.failed), (0b1100, 3, 2, 1))
        self.assertEqual([job.suite for job in self.jobs], [[[1, [1, 2]], [2, [1, 2]], [0, [1, 2]]]])
        self.assertEqual((proving.proofs.unfinished, search.round_number), (2, 0))

    def test_what_a_row_has_to_keep(self) -> None:
        proving = self.went(candidate(1, 1), candidate(2, 2, (9, 9)), kept=Kept({}, {1: (0, 5)}))
        self.assertEqual((proving.killed, proving.search.alive), (1, 0b1110))

    def test_a_row_that_takes_long_is_run_at_the_limit_that_is_asked_for(self) -> None:
        proving = self.went(candidate(1, SLOW + 1))
        search = proving.search
        self.assertEqual((proving.killed, search.failed, list(search.exact)), (1, 0, [(SLOW + 1, (1, 2))]))
        # Of rows that were tried it is asked later to which lines they come, within few steps.
        self.assertEqual(search.tried, [])

    def test_without_a_kill_it_is_not_asked_again(self) -> None:
        for candidates in ([], [candidate(1, 10)], [candidate(1, FAILS)], [candidate(1, 0)]):
            self.assertEqual((self.went(*candidates).killed, self.jobs), (0, []))

    def test_it_is_asked_as_long_as_a_kill_or_a_proof_comes_of_it(self) -> None:
        proof = Proof(MUTANTS[1], 5)
        self.answers = [Answer([proof], 0, [given]) for given in (candidate(3, 20), candidate(3, 3), candidate(4, 3))]
        proving = self.went(candidate(1, 1))
        self.assertEqual((len(self.jobs), proving.killed, proving.tried), (3, 2, 3))
        self.assertEqual((proving.search.alive, proving.search.proved, proving.search.killed), (0b1000, 0b10, 0b101))
        self.assertEqual(proving.proofs.spares, {"SDL 2": 5})

    def test_where_a_proof_was_given_up_is_told_by_the_last_answer_that_says_it(self) -> None:
        old, new = (Left("SDL", 3, 3, line, line) for line in (3, 4))
        other = Left("SDL", 4, 4, 3, 3)
        self.answers = [Answer([], left=[new])]
        self.assertEqual(self.went(candidate(1, 1), left=[old, other]).proofs.left, {"SDL 3": new, "SDL 4": other})
        self.assertEqual(self.went(left=[old]).proofs.left, {"SDL 3": old})

    def test_it_ends_where_nothing_is_left(self) -> None:
        self.answers = [Answer([Proof(each) for each in MUTANTS])]
        proving = self.went(candidate(1, 1))
        self.assertEqual((len(self.jobs), proving.search.alive, proving.search.proved), (1, 0, 0b1110))
        self.went(*(candidate(number, number) for number in range(1, 5)))
        self.assertEqual(len(self.jobs), 1)

    def test_it_is_asked_some_times_at_most(self) -> None:
        def asked(job: Job, seconds: float | None) -> Answer:
            self.jobs.append(job)
            proving.search.alive |= 1
            return Answer([], 0, [candidate(1, 10 * len(self.jobs) + 1)])

        proving = self.went()
        proving.ask, proving.proofs = asked, proving.proofs._replace(candidates=[candidate(1, 1)])
        proving.go(lambda text: None)
        self.assertEqual(len(self.jobs), TURNS)

    def test_what_takes_too_long_or_is_refused_ends_it(self) -> None:
        for fault in (OutOfTime(), Fault("", "FAULT O1")):
            proving = self.went()

            def asked(job: Job, seconds: float | None) -> Answer:
                raise fault

            proving.ask, proving.proofs = asked, proving.proofs._replace(candidates=[candidate(1, 1)])
            proving.go(lambda text: None)
            self.assertEqual(proving.killed, 1)

    def test_it_has_a_share_of_the_time(self) -> None:
        for passed, killed in ((0.0, 1), (50.0, 0)):
            self.assertEqual(self.went(candidate(1, 1), seconds=100.0, passed=passed).killed, killed)

    def test_each_mutant_has_its_turn(self) -> None:
        candidates = [candidate(1, 1), candidate(1, 2), candidate(2, 3), candidate(1, 4), candidate(2, 5)]
        values = [[each.test[0] for each in turn] for turn in in_turns(candidates)]
        self.assertEqual(values, [[1, 3], [2, 5], [4]])


if __name__ == "__main__":
    unittest.main()
