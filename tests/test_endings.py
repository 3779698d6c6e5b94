"""How a call ends where nobody reads what it writes, and what the tests say of those that were skipped."""

import io
import os
import signal
import subprocess
import unittest
from contextlib import redirect_stderr
from unittest import mock

import running
from mutants import statuses
from mutants.ending import ended_by_signals
from running import ROOT


class Pipes(unittest.TestCase):
    def ended(self, errors: int, *words: str) -> tuple[int, str]:
        """The status and the errors of a call whose output nobody reads, nor its errors where both are one pipe."""
        null, pipe = subprocess.DEVNULL, subprocess.PIPE
        with subprocess.Popen(running.words_of("", words), stdin=null, stdout=pipe, stderr=errors) as begun:
            assert begun.stdout
            begun.stdout.close()
            told = begun.stderr.read().decode() if begun.stderr else ""
            return begun.wait(20), told

    def test_a_pipe_that_nobody_reads_has_its_status(self) -> None:
        # What is kept back is written at the end, and must not fail once more.
        with mock.patch.dict(os.environ, {"PYTHONUNBUFFERED": ""}):
            ended = self.ended(subprocess.PIPE, "job", str(running.example("euclid", ".f")))
            self.assertEqual(ended, (statuses.FAULT, ""))
            self.assertEqual(self.ended(subprocess.STDOUT, "job", "gone.f")[0], statuses.FAULT)


class Signals(unittest.TestCase):
    def test_what_is_ignored_stays_so(self) -> None:
        for number, how in ((signal.SIGHUP, signal.SIG_IGN), (signal.SIGTERM, signal.SIG_DFL)):
            self.addCleanup(signal.signal, number, signal.signal(number, how))
        with ended_by_signals():
            self.assertEqual(signal.getsignal(signal.SIGHUP), signal.SIG_IGN)
            self.assertNotEqual(signal.getsignal(signal.SIGTERM), signal.SIG_DFL)
        self.assertEqual(signal.getsignal(signal.SIGTERM), signal.SIG_DFL)


class Skipping(unittest.TestCase):
    def test_the_last_line_of_all_tests_says_what_was_skipped(self) -> None:
        class Case(unittest.TestCase):
            pass

        errors = io.StringIO()
        with mock.patch.object(running, "SKIPPED", []), redirect_stderr(errors):
            self.assertIs(running.needs(True, "air")(Case), Case)
            self.assertTrue(getattr(running.needs(False, "a moon")(Case), "__unittest_skip__"))
            running.tell_skipped()
        self.assertEqual(errors.getvalue(), "Skipped: the tests that need a moon, which is not installed.\n")
        self.assertIn("GNU parallel (Debian's package `parallel`)", (ROOT / "README.md").read_text())


if __name__ == "__main__":
    unittest.main()
