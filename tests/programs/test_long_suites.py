"""Suites in parts, and over the limit of a job; long summaries: what is told of each test and declared mutant."""

import json
import os
import unittest
from collections.abc import Sequence
from unittest import mock

from proved import OPS, said
from room import DECLARED, Room
from mutants import progress
from mutants.checks import parts, summary
from mutants.texts import batches
from mutants.texts.batches import batch_text
from mutants.texts.jobs import Job
from mutants.texts.joining import joined_batches, joined_operators
from mutants.texts.report_lines import report_text
from mutants.texts.reports import read_report
from running import LEAST, TESTS, has

TOTALS = {"ROR": 7, "RSR": 3, "SAN": 3, "SDL": 3}
ALL = [f"{op} {place}" for op, total in TOTALS.items() for place in range(1, total + 1)]


def ran(suite: list[list[int]], ops: str = OPS, declared: Sequence[str] = ()) -> str:
    """The report of one run."""
    return said("run", batch_text(Job(LEAST, suite, list(declared))), "--ops", ops)


class Parts(Room):
    def test_a_suite_in_batches_and_groups_has_the_one_report(self) -> None:
        suite = [[n % 4, n % 3, n] for n in range(7)]
        self.tests = self.put("tests.json", str(suite))
        names = self.put("names.csv", DECLARED)
        wanted = ran(suite, declared=("ROR 1", "SDL 2"))
        report = self.folder / "report"
        words = ["--equivalent", names, "--report", report, "--no-page"]
        with mock.patch.object(batches, "MOST_TESTS", 3), mock.patch.object(parts, "LEAST", 4):
            status, _, errors = self.check(*words)
        self.assertEqual((status, errors), (0, ""))
        self.assertEqual(report.read_text(), wanted)
        report.unlink()
        self.check(*words, "--lines", "3")
        alone = ran(suite, "RSR,SAN,SDL", declared=("SDL 2",))
        self.assertEqual(report.read_text(), alone)

    def test_a_long_job_tells_how_far_it_is(self) -> None:
        with mock.patch.object(progress, "QUIET", 0.0), mock.patch.object(progress, "OFTEN", 0.0):
            status, _, errors = self.check("--no-page", "--anew")
        self.assertEqual(status, 0)
        self.assertRegex(errors, r"(?m)^mutants check: the program itself on 2 tests: 0 % done$")
        self.assertRegex(errors, r"(?m)^mutants check: 16 mutants, 2 tests: \d+ % done")

    def test_parts_on_other_machines(self) -> None:
        elsewhere = self.folder / "elsewhere"
        elsewhere.mkdir()
        report = self.folder / "report"
        words = ["--sshlogin", "elsewhere", "--report", report, "--no-page"]
        change = {"PATH": f"{TESTS / 'bin'}:{os.environ['PATH']}", "FAKE_SSH_FOLDER": str(elsewhere)}
        with mock.patch.dict(os.environ, change), mock.patch.object(batches, "MOST_TESTS", 1):
            status, out, errors = self.check(*words)
        self.assertEqual((status, errors), (0, ""))
        self.assertIn("Score 93.75 %", out)
        self.assertEqual(report.read_text(), ran([[1, 2, 0], [2, 1, 0]]))
        self.assertEqual(list(elsewhere.iterdir()), [])

    def test_those_that_were_run_apart(self) -> None:
        suite = [[5, n % 11, n] for n in range(23)]
        for declared in ((), ("ROR 1", "SDL 2", "ROR 4")):
            whole = ran(suite, declared=declared)
            parts = [read_report(ran(suite[at : at + 5], declared=declared)) for at in range(0, 23, 5)]
            self.assertEqual(report_text(joined_batches(parts)), whole)

    def test_those_that_were_run_apart_in_batches(self) -> None:
        suite = [[n % 3, n % 5, 9] for n in range(12)]
        groups = []
        for ops in ("ROR,RSR", "SAN,SDL"):
            parts = [read_report(ran(suite[at : at + 4], ops)) for at in (0, 4, 8)]
            groups.append(joined_batches(parts))
        self.assertEqual(report_text(joined_operators(groups)), ran(suite))


class LongSuites(Room):
    def test_they_have_the_report_of_one_run_and_each_test_is_told(self) -> None:
        report = self.folder / "report"
        for count in (257, 600):
            suite = [[n % 7, n % 5, n] for n in range(count)]
            self.tests = self.put("tests.json", json.dumps(suite))
            status, out, errors = self.check("--no-page", "--report", report)
            self.assertEqual((status, errors), (0, ""))
            self.assert_joined(report.read_text(), suite)
            last = f"  {count}  {suite[-1]}  RETURNED "
            has(self, out, f": {count} tests\n", "\n    1  [0, 0, 0]    RETURNED 0 0 0\n", last)
            has(self, out, f"\n{count} of the tests kill nothing that others do not", f"\nThey are 1 to {count}.\n")

    def assert_joined(self, text: str, suite: list[list[int]]) -> None:
        """A report has of each mutant what mothra says of it in other parts of the suite."""
        ends = [(at, at + 100) for at in range(0, len(suite), 100)]
        reports = [read_report(ran(suite[slice(*each)])) for each in ends]
        bits = ["".join(row.bits for row in rows) for rows in zip(*(report.rows for report in reports))]
        self.assertEqual([row.bits for row in read_report(text).rows], bits)

    def test_files_for_other_programs_have_each_test(self) -> None:
        suite = [[n % 7, n % 5, n] for n in range(257)]
        self.tests = self.put("tests.json", json.dumps(suite))
        path = self.folder / "m.json"
        self.assertEqual(self.check("--no-page", "--ops", "ROR", "--json", path)[0], 0)
        found = json.loads(path.read_text())
        self.assertEqual(len(found["testFiles"][str(self.tests)]["tests"]), 257)
        mutant = found["files"][str(self.program)]["mutants"][0]
        self.assertEqual((mutant["killedBy"], mutant["coveredBy"][-1]), ([], "257"))


class Summaries(Room):
    def test_each_declared_mutant_is_told(self) -> None:
        self.put("tests.csv", "")
        out = self.check("--no-page", "--equivalent", self.put("names.json", json.dumps(ALL)))[1]
        has(self, out, "16 mutants declared equivalent:", "No score: 0 of 0 mutants killed, not counting 16 declared")
        told = [line[2:10].strip() for line in out.splitlines() if line.endswith(": no reason is given")]
        self.assertEqual(told, ALL)

    def test_many_survivors_of_an_operator_on_a_line_are_counted(self) -> None:
        self.put("tests.csv", "")
        with mock.patch.object(summary, "ALIKE", 3):
            out = self.check("--no-page")[1]
        shown = ["  ROR 1     IF (J[.LT. -> .LE.]I) K=J", "  ROR 2     IF (J[.LT. -> .EQ.]I) K=J"]
        has(self, out, "\n".join([*shown, "  ROR       and 5 more", "  RSR 2 "]))


if __name__ == "__main__":
    unittest.main()
