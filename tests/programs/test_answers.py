"""What no clause says of the programs: their exit status, the threads of an analysis, that no limit refuses a plan."""

import json
import os
import subprocess
import time
import unittest
from collections.abc import Iterable
from pathlib import Path
from typing import TypeVar

from proved import EQUIVALENTS, MOTHRA, OPS, said
from mutants.texts.lines import Mutant
from mutants.texts.lists import read_list
from mutants.texts.reports import Row, read_report
from running import LEAST, example

Each = TypeVar("Each", Mutant, Row)


def job_of(suite: list[list[int]]) -> bytes:
    return json.dumps({"source": LEAST, "suite": suite}).encode()


JOB = job_of([[1, 2, 0], [2, 1, 0]])
ILL = json.dumps({"source": "      END\n", "suite": []}).encode()


def status_of(program: str, words: tuple[str, ...], job: bytes) -> int:
    return subprocess.run([program, *words], input=job, capture_output=True, check=False).returncode


def most_threads(workers: int) -> int:
    """The most threads that an analysis of the desk has at a time, with so many workers."""
    words, none = [MOTHRA, "run", "--workers", str(workers)], subprocess.DEVNULL
    with example("desk", ".json").open("rb") as job, subprocess.Popen(words, stdin=job, stdout=none) as run:
        threads, most = Path("/proc", str(run.pid), "task"), 0
        while run.poll() is None:
            try:
                most = max(most, len(os.listdir(threads)))
            except OSError:
                break
            time.sleep(0.001)
    return most


def thinned(mutants: Iterable[Each], every: int) -> list[Each]:
    """Of each operator the mutants 1, q + 1, 2 q + 1 and on of its whole list, numbered anew."""
    kept = [each for each in mutants if (each.place - 1) % every == 0]
    return [each._replace(number=(each.place - 1) // every + 1) for each in kept]


def bits_of(suite: list[list[int]]) -> list[str]:
    """Of each mutant a digit for each test: whether it kills."""
    return [row.bits for row in read_report(said("run", job_of(suite), "--ops", OPS)).rows]


class Statuses(unittest.TestCase):
    def test_a_report_a_fault_and_refused_words(self) -> None:
        for program, words in ((MOTHRA, ("run", "--ops", "ROR")), (EQUIVALENTS, ("--ops", "ROR"))):
            for status, given, job in (
                (0, words, JOB),
                (0, ("--help",), b""),
                (0, ("--version",), b""),
                (1, words, ILL),
                (1, words, b"{"),
                (2, (*words, "--every", "none"), JOB),
                (2, ("--ops",), JOB),
            ):
                with self.subTest(program=program, words=given, job=job):
                    self.assertEqual(status_of(program, given, job), status)


class Limits(unittest.TestCase):
    """Each step, each number of workers and of tests within the limits has its list and its report."""

    def test_each_step_through_the_lists(self) -> None:
        job = example("desk", ".json").read_bytes()
        _, listed = read_list(said("list", job))
        whole = read_report(example("desk", ".report").read_text(encoding="utf-8"))
        for every in (2, 3, 1000, 2000, 1_048_574, 1_048_575):
            with self.subTest(every=every):
                words = ("--every", str(every))
                self.assertEqual(read_list(said("list", job, *words))[1], thinned(listed, every))
                self.assertEqual(read_report(said("run", job, *words)).rows, thinned(whole.rows, every))

    def test_each_number_of_workers(self) -> None:
        reports = {said("run", JOB, "--workers", str(workers)) for workers in range(1, 33)}
        self.assertEqual([read_report(report).tests for report in reports], [2])

    def test_each_number_of_tests(self) -> None:
        suite = [[n % 16, n // 16, 0] for n in range(256)]
        bits = [""] * 16
        for count, test in enumerate(suite, 1):
            bits = [front + last for front, last in zip(bits, bits_of([test]))]
            self.assertEqual(bits_of(suite[:count]), bits)


@unittest.skipUnless(Path("/proc/self/task").is_dir(), "the threads of a program are seen below /proc")
class Workers(unittest.TestCase):
    def test_an_analysis_has_the_workers_that_were_asked_for(self) -> None:
        # Beside them there is the thread that waits for them, and at first two that hand out mutants.
        for workers in (1, 5):
            with self.subTest(workers=workers):
                most = max(most_threads(workers) for _ in range(3))
                self.assertTrue(workers + 1 <= most <= workers + 3, most)


if __name__ == "__main__":
    unittest.main()
