"""The comparison with gfortran, of the program and of each of its mutants."""

import json
import shutil
import unittest
from collections import Counter

import running
from proved import MOTHRA
from developing.gfortran.comparing import Mutant, compared_runs, mutants_of
from running import LEAST, Folder

JOB = json.dumps({"source": LEAST, "suite": [[1, 2, 0], [2, 1, 0]]}).encode()


class Mutants(unittest.TestCase):
    def test_reads_the_mutants_with_their_bits(self) -> None:
        mutants, steps = mutants_of(MOTHRA, JOB)
        self.assertEqual(steps, "10000")
        self.assertIn(Mutant("ROR 1", 4, "IF (J.LE.I) K=J", "00"), mutants)


@running.needs(shutil.which("gfortran"), "gfortran (Debian's package gfortran)")
class WithGfortran(Folder):
    def test_the_program_and_each_mutant_agree(self) -> None:
        self.assertEqual(compared_runs(MOTHRA, JOB, self.folder, False), (0, Counter(agree=2), []))
        count = len(mutants_of(MOTHRA, JOB)[0])
        self.assertEqual(compared_runs(MOTHRA, JOB, self.folder, True), (count, Counter(agree=2 * count), []))

    def test_a_wrong_program_is_told(self) -> None:
        wrong = self.put_program("wrong", "#!/bin/sh\necho RETURNED 1 2 3\n")
        told = "test 1: mothra RETURNED 1 2 3, gfortran RETURNED 1 2 1"
        self.assertIn(told, compared_runs(str(wrong), JOB, self.folder, False)[2])


if __name__ == "__main__":
    unittest.main()
