"""The sweep over proved mutants: none is killed, and one that is killed is told."""

import unittest
from collections.abc import Sequence
from pathlib import Path
from unittest import mock

from proved import EQUIVALENTS, MOTHRA
from room import Room
from test_proved import SURE
from developing import equivalents_sweep as sweep
from developing.robustness.programs import program_of
from mutants import statuses
from mutants.suggestions.asking import Asker
from mutants.suggestions.shapes import Row
from mutants.texts.lines import Mutant
from mutants.texts.proofs import Proof
from running import LEAST, Ended, run

SDL_2 = "{} SDL 2 2 LINE 4 CONTINUE"


class Sweeps(Room):
    def sweep(self, *words: object, mothra: object = MOTHRA, proofs: object = EQUIVALENTS) -> Ended:
        return run("equivalents-sweep", "--tests", "40", "--jobs", "1", *words, mothra, proofs, self.program)

    def wrong(self, word: str) -> Path:
        """A program that calls a mutant equivalent which a test kills."""
        return self.put_program("wrong", f"#!/bin/sh\nprintf '{SDL_2.format(word)}\\nPROVED 1 OF 2\\n'\n")

    def test_an_equivalent_mutant_is_not_killed(self) -> None:
        self.program.write_text(SURE)
        status, out, errors = self.sweep("--programs", "2")
        self.assertEqual((status, errors), (statuses.SUCCESS, ""))
        proved = r"\d+ proved, \d+ with steps to spare \(\d at most\), 0 not finished"
        tests = r"\d+ tests \(\d+ by failed proofs\)"
        self.assertRegex(out, rf"^least\.f: \d+ mutants, {proved}, {tests}, 0 killed\n2 made programs: ")
        self.assertTrue(out.endswith("\nno mutant is killed that is proved equivalent\n"), out)

    def test_one_that_is_killed_is_told_with_the_test(self) -> None:
        for word, spare, meant in (("EQUIVALENT", 0, ""), ("SPARE 1", 1, " with 1 step to spare")):
            status, out, _ = self.sweep("--programs", "0", proofs=self.wrong(word))
            self.assertEqual(status, statuses.FAULT)
            tests = "40 tests (0 by failed proofs)"
            self.assertIn(f" 1 proved, {spare} with steps to spare ({spare} at most), 0 not finished, {tests}, 1", out)
            named = f"\nleast.f: SDL 2 2 LINE 4 CONTINUE, equivalent{meant}: killed by "
            self.assertRegex(out, named + r"\[.*\] with --steps 10000\n")

    def test_where_it_has_not_the_room_to_spare_it_may_be_killed(self) -> None:
        limits: list[int] = []

        def within(asker: Asker, rows: Sequence[Row], steps: int) -> set[Row]:
            limits.append(steps)
            return set()

        with mock.patch.object(sweep, "within", within):
            status, out, _ = self.sweep("--programs", "0", proofs=self.wrong("SPARE 2"))
        self.assertEqual((status, limits[0]), (statuses.SUCCESS, sweep.STEPS - 2))
        self.assertIn(limits[1] + 2, sweep.SMALL)

    def test_within_no_step_no_program_ends(self) -> None:
        proof = Proof(Mutant("SDL", 2, 2, 4, "CONTINUE"), 2)
        asker = sweep.asker_of(sweep.Case("least.f", LEAST), [], [proof], MOTHRA)
        found = [sweep.within(asker, [(1, 2, 3)], steps) for steps in (-1, 0, 1, 9)]
        self.assertEqual(found, [set(), set(), set(), {(1, 2, 3)}])

    def test_a_made_program_that_is_refused_is_told_with_its_source(self) -> None:
        refusing = self.wrapped("refusing", '[ "$1" = list ] && { echo FAULT S2 1; exit 1; }')
        status, out, _ = self.sweep("--programs", "1", mothra=refusing)
        self.assertEqual(status, statuses.FAULT)
        self.assertIn(f"program 1: mothra list: FAULT S2 1\n{program_of(1, 1)}", out)


if __name__ == "__main__":
    unittest.main()
