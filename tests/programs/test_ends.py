"""How a check ends by a signal, and that a user without a home has one."""

import os
import signal
import subprocess
import unittest
from functools import partial
from pathlib import Path
from unittest import mock

import running
from room import Room
from mutants import statuses


class Signals(Room):
    def test_what_was_begun_ends_too_and_no_file_is_left(self) -> None:
        begin = "[ -e begun ] || { echo $$ > pid; touch begun; }"
        slow = self.wrapped("slow", f'[ "$1" = run ] && {{ {begin}; exec sleep 60; }}')
        words = running.words_of("check", ["--mothra", slow, "--no-proofs", self.program, self.tests])
        for number in (signal.SIGTERM, signal.SIGHUP):
            with self.subTest(number.name):
                (self.folder / "begun").unlink(missing_ok=True)
                # These tests may be run where it is ignored, as by nohup.
                take = partial(signal.signal, number, signal.SIG_DFL)
                with subprocess.Popen(words, cwd=self.folder, stderr=subprocess.DEVNULL, preexec_fn=take) as begun:
                    self.assertTrue(running.waited_for((self.folder / "begun").exists, 60))
                    begun.send_signal(number)
                    self.assertEqual(begun.wait(60), statuses.BY_SIGNAL + number)
                with self.assertRaises(ProcessLookupError):
                    os.kill(int((self.folder / "pid").read_text()), 0)
                self.assertEqual(self.names(), ["begun", "least.f", "pid", "slow", "tests.csv"])


class WithoutHome(Room):
    def test_a_user_without_a_home_and_a_name_has_no_caches_and_all_else(self) -> None:
        gone = mock.patch.object(Path, "home", side_effect=RuntimeError("Could not determine home directory."))
        with mock.patch.dict(os.environ, {"XDG_CACHE_HOME": ""}), gone:
            status, out, errors = self.check("--no-page")
            refused = running.run("unproved", "mothra")
        self.assertEqual((status, errors), (0, ""))
        self.assertIn("15 of 16 mutants killed", out)
        running.refuses(self, (refused[0], refused[1], refused[2].split("\n", 1)[-1]), "XDG_CACHE_HOME names one")


if __name__ == "__main__":
    unittest.main()
