"""The parts of a check: lines, batches of tests, groups of operators, and how far it is."""

import io
import sys
import unittest
from unittest import mock

import running  # noqa: F401  it finds the package
from mutants import progress
from mutants.checks import parts, running as checks_running, summary
from mutants.checks.choice import lines_within
from mutants.checks.running import Means
from mutants.texts import batches
from mutants.texts.batches import MOST_BYTES, batch_text
from mutants.texts.jobs import Job


class Parts(unittest.TestCase):

    def test_batches_have_the_limits_of_a_job(self) -> None:
        many = Job("", [[n] for n in range(600)])
        self.assertEqual(batches.batches(many), [(0, 256), (256, 512), (512, 600)])
        self.assertEqual(batches.batches(Job("", [])), [(0, 0)])
        large = Job("C\n" * 1000, [[[n] * 50_000] for n in range(100_000_000, 100_000_009)])
        ends = batches.batches(large)
        self.assertEqual((ends[0][0], ends[-1][1], len(ends)), (0, 9, 9))
        self.assertTrue(all(len(batch_text(large, *pair)) <= MOST_BYTES for pair in ends))
        small = Job("", [[[n] * 5_000] for n in range(100)])
        self.assertTrue(all(len(batch_text(small, *pair)) <= MOST_BYTES for pair in batches.batches(small)))

    def test_groups_keep_the_order_and_the_longest_part_comes_first(self) -> None:
        totals = {"AAR": 3, "ABS": 50, "ACR": 0, "AOR": 9}
        self.assertEqual(batches.groups_of(totals, 40), [["AAR", "ABS"], ["ACR", "AOR"]])
        found = parts.parts_of(totals, [["AAR", "ABS"], ["ACR", "AOR"]], [2, 1])
        self.assertEqual(found, [(0, 0, 106), (1, 0, 53), (0, 1, 18), (1, 1, 9)])

    def test_a_part_that_is_most_of_a_job_has_several_threads(self) -> None:
        found = [parts.Part(0, 0, 600), parts.Part(0, 1, 200)]
        with mock.patch.object(checks_running, "processors", lambda: 4):
            for means, threads in (
                (Means("mothra"), "31"),
                (Means("mothra", jobs=2), "11"),
                (Means("mothra", None, "7"), "77"),
            ):
                calls = checks_running.part_calls(Job("", [[1]]), means, [["GLR"], ["ABS"]], found)
                self.assertEqual("".join(words[-1] for words, _ in calls), threads)

    def test_a_line_of_a_log_is_not_told_again_where_nothing_was_done(self) -> None:
        errors = io.StringIO()
        with mock.patch.object(sys, "stderr", errors), mock.patch.object(progress, "OFTEN", 0.0):
            estimate = progress.Estimate("check", "work", 2)
            estimate.next = 0.0
            for part in (0, 0, 1, 0):
                estimate.add(part)
                estimate.tick()
        told = "check: work: 0 % done\ncheck: work: 50 % done, about \\d+ s left\n"
        self.assertRegex(errors.getvalue(), f"^{told}$")

    def test_lines_that_continue_a_statement_are_its_own(self) -> None:
        source = "      K=1\n      I=\nC\n     &J\n      END\n"
        self.assertEqual(lines_within(source, [(4, 4)]), {2})
        self.assertEqual(lines_within(source, [(1, 2)]), {1, 2})
        self.assertEqual(lines_within(source, [(6, 9)]), set())

    def test_numbers_in_a_row_are_a_range(self) -> None:
        for numbers, told in (([1], "1"), ([1, 2], "1 to 2"), ([1, 3, 4, 5, 9, 11, 12], "1, 3 to 5, 9 and 11 to 12")):
            self.assertEqual(summary.ranges_text(numbers), told)

    def test_a_time_is_told_in_a_unit_that_suits_it(self) -> None:
        told = [progress.seconds_text(seconds) for seconds in (0.2, 99, 130, 7200)]
        self.assertEqual(told, ["1 s", "99 s", "2 minutes", "2.0 hours"])


if __name__ == "__main__":
    unittest.main()
