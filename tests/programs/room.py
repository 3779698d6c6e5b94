"""What the tests of the check share: a folder with a program and a table of two tests."""

from pathlib import Path
from unittest import mock

import running
from mutants import progress
from proved import MOTHRA, OPS, mutants
from running import LEAST, Folder

TWO = "1,2,0\n2,1,0\n"
GREAT = LEAST.replace("LEAST", "GREAT").replace(".LT.", ".GT.")
# Two declared mutants, of which the tests kill the second.
DECLARED = """\
mutant,before,after,reason
ROR 1,IF (J.LT.I) K=J,IF (J.LE.I) K=J,J and I are the same then
SDL 2,IF (J.LT.I) K=J,CONTINUE,a mistake
"""


class Room(Folder):
    """A folder with a program and a table of two tests."""

    def setUp(self) -> None:
        super().setUp()
        self.program = self.put("least.f", LEAST)
        self.tests = self.put("tests.csv", TWO)
        # A machine that has other things to do tells no more than another one.
        running.holds(self, mock.patch.object(progress, "QUIET", 1e9))

    def check(self, *words: object, program: object = MOTHRA, proofs: object = None, ops: str = OPS) -> running.Ended:
        """What comes of the check. All is told: what is told without a word has tests of its own."""
        return mutants("check", "--all", *words, self.program, self.tests, program=program, proofs=proofs, ops=ops)

    def wrapped(self, name: str, *lines: str) -> Path:
        """A program that is mothra but for what these lines of a shell do first."""
        return self.put_program(name, "\n".join(["#!/bin/sh", *lines, f'exec "{MOTHRA}" "$@"', ""]))


def without_progress(errors: str) -> str:
    """The errors of a command without what they say of how far it is."""
    said = ("% done", ": asking which of ")
    return "".join(line for line in errors.splitlines(keepends=True) if not any(each in line for each in said))
