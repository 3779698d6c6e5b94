"""Parts of a check on other machines: the words for GNU parallel, what is told of a failure, Ctrl-C."""

import os
import time
import unittest
from collections.abc import Mapping
from pathlib import Path
from unittest import mock

import running
from proved import OPS, mutants, said
from mutants import statuses
from mutants.texts import batches
from mutants.program.unproved import MARK
from mutants.texts.batches import batch_text
from mutants.texts.jobs import Job
from room import Room, without_progress
from running import LEAST, TESTS, refuses
import test_course  # noqa: F401  it has asked for GNU parallel already

FAILS = f"""\
#!/bin/sh
[ "$1" = --version ] && {{ echo GNU parallel, which fails; exit 0; }}
cat > /dev/null
echo 'ssh: no machine anna' >&2
echo '{MARK}nothing is proved' >&2
exit 255
"""


def is_gone(pid: str) -> bool:
    """Whether a process ends soon: one that nobody has waited for has ended too."""
    stat = Path("/proc", pid, "stat")
    for _ in range(100):
        try:
            if stat.read_text().rpartition(")")[2].split()[0] == "Z":
                return True
        except OSError:
            return True
        time.sleep(0.02)
    return False


class Machines(Room):
    def path(self, *folders: Path) -> Mapping[str, str]:
        return {"PATH": ":".join([*map(str, folders), os.environ["PATH"]])}

    def test_the_options_of_the_call_come_to_it_in_any_place(self) -> None:
        seen = self.put("seen", "")
        self.put_program("parallel", f'#!/bin/sh\necho "$@" >> {seen}\nexec {TESTS / "bin" / "parallel"} "$@"\n')
        logins = ["--sshlogin", "8/anna", "--jobs", "2", "--sshlogin=bert"]
        words = [self.program, *logins[:2], self.tests, *logins[2:]]
        with mock.patch.dict(os.environ, self.path(self.folder)):
            status, out, errors = mutants("check", "--no-page", *words)
        self.assertEqual((status, errors), (0, ""))
        self.assertIn("Score 93.75 %", out)
        told = "--pipe -N2 --block 2M --jobs 2 --sshlogin 8/anna --sshlogin bert sh -c "
        self.assertTrue(seen.read_text().splitlines()[-1].startswith(told), seen.read_text())

    def test_a_machine_that_is_not_there_is_one_line(self) -> None:
        self.put_program("parallel", FAILS)
        with mock.patch.dict(os.environ, self.path(self.folder)):
            ended = self.check("--no-page", "--sshlogin", "anna")
        refuses(self, ended, "1 part of the job without an answer: ssh: no machine anna\n")
        self.assertEqual(self.names(), ["least.f", "parallel", "tests.csv"])

    def test_without_parallel_it_is_said(self) -> None:
        with mock.patch.dict(os.environ, {"PATH": str(self.folder)}):
            ended = self.check("--no-page", "--sshlogin", "anna")
        refuses(self, ended, "GNU parallel is not found", "Debian's package parallel")

    def test_ctrl_c_leaves_nothing_behind(self) -> None:
        slow = self.wrapped("slow", '[ "$1" = run ] && { echo $$ > pid; touch begun; exec sleep 20; }')
        words = ["--sshlogin", "anna", "--mothra", slow, "--no-proofs", self.program, self.tests]
        with mock.patch.dict(os.environ, self.path(TESTS / "bin")):
            status, errors = running.interrupted(str(self.folder), "check", *words)
        self.assertEqual((status, without_progress(errors)), (statuses.INTERRUPTED, "\n"))
        self.assertTrue(is_gone((self.folder / "pid").read_text().strip()))
        self.assertEqual(self.names(), ["begun", "least.f", "pid", "slow", "tests.csv"])


@unittest.skipIf(any("GNU parallel" in what for what in running.SKIPPED), "GNU parallel is not installed")
class WithParallel(Room):
    def test_parts_on_this_machine_have_the_one_report(self) -> None:
        report = self.folder / "report"
        with mock.patch.object(batches, "MOST_TESTS", 1):
            ended = self.check("--no-page", "--sshlogin", ":", "--report", report)
        self.assertEqual((ended[0], ended[2]), (0, ""))
        self.assertEqual(report.read_text(), said("run", batch_text(Job(LEAST, [[1, 2, 0], [2, 1, 0]])), "--ops", OPS))


if __name__ == "__main__":
    unittest.main()
