"""Proofs that are kept: what is asked again, and what is not."""

import os
import time
import unittest
from pathlib import Path
from unittest import mock

import running
from proved import EQUIVALENTS
from room import Room
from mutants import progress
from mutants.caches import caches_folder, keep
from mutants.declarations import kept, proving
from mutants.declarations.proving import Prover
from mutants.program.calling import Fault
from mutants.texts.jobs import Job
from test_proved import LOOP, SPARE, SURE

ANSWER = proving.plain_answer


class Kept(Room):
    def setUp(self) -> None:
        super().setUp()
        self.asked: list[list[str]] = []
        running.holds(self, mock.patch.dict(os.environ, {"XDG_CACHE_HOME": str(self.folder / "caches")}))
        running.holds(self, mock.patch.object(proving, "plain_answer", self.counted))

    def counted(self, name: str, program: str, words: list[str], job: bytes, seconds: float | None) -> str:
        self.asked.append(words)
        return ANSWER(name, program, words, job, seconds)

    def spares(
        self, ops: str = "SDL", *words: str, suite: list[object] = [[1, 0]], source: str = SURE, anew: bool = False
    ) -> list[int]:
        """How many steps the proofs of a program and its tests have to spare."""
        answer = Prover(EQUIVALENTS, anew=anew).proved(["--ops", ops, *words], Job(source, suite))
        return [proof.spare for proof in answer.proofs]

    def entry(self) -> Path:
        folder = caches_folder(kept.KIND)
        assert folder
        (found,) = folder.iterdir()
        return found

    def test_what_has_not_changed_is_asked_once(self) -> None:
        for suite, count in (([[1, 0]], 1), ([[1, 0]], 1), ([[2, 1], [3, 3]], 2)):
            self.assertEqual(self.spares(suite=suite), [0])
            self.assertEqual(len(self.asked), count)
        self.spares(source=SURE + "C     A remark\n")
        self.spares("ROR")
        self.assertEqual(len(self.asked), 4)
        self.spares(anew=True)
        self.assertEqual(len(self.asked), 5)

    def test_a_check_asks_once_and_with_anew_again(self) -> None:
        for words, count in (([], 1), ([], 1), (["--anew"], 2), (["--no-proofs"], 2)):
            self.assertEqual(self.check("--no-page", *words, proofs=EQUIVALENTS)[0], 0)
            self.assertEqual(len(self.asked), count, words)

    def test_other_batches_are_asked_about_the_operators_with_steps_to_spare_alone(self) -> None:
        for _ in range(2):
            self.assertEqual(self.spares("ROR,SDL", source=LOOP, suite=[[1, 0]] * 300), [0, 1])
            self.assertEqual(self.asked, [["--ops", "ROR,SDL"], ["--ops", "SDL"]])
        # This test leaves no room for a step more.
        self.assertEqual(self.spares("ROR,SDL", "--steps", "60", source=LOOP, suite=[[100, 0]]), [0])
        self.assertEqual(self.asked[2:], [["--ops", "ROR,SDL", "--steps", "60"]])

    def test_another_program_is_asked_for_itself(self) -> None:
        other = self.put("other", Path(EQUIVALENTS).read_bytes() + b"another build")
        self.spares()
        with self.assertRaises(ValueError):
            Prover(str(other)).proved(["--ops", "SDL"], Job(SURE, []))
        self.assertEqual(len(self.asked), 2)

    def test_a_damaged_entry_is_made_anew(self) -> None:
        self.spares()
        entry = self.entry()
        whole = entry.read_bytes()
        for damaged in (whole[:-9], whole.replace(b"EQUIVALENT", b"SAME"), b"", b"\xff\n\xff"):
            entry.write_bytes(damaged)
            self.assertEqual(self.spares(), [0])
            self.assertEqual(entry.read_bytes(), whole)
        self.assertEqual(len(self.asked), 5)

    def test_what_is_refused_is_not_kept(self) -> None:
        for _ in range(2):
            with self.assertRaises(Fault):
                self.spares(source=SPARE.replace("RETURN", "CALL X"))
        self.assertEqual(len(self.asked), 2)

    def test_without_a_folder_it_is_asked(self) -> None:
        with mock.patch.dict(os.environ, {"XDG_CACHE_HOME": str(self.program)}):
            self.assertEqual((self.spares(), self.spares()), ([0], [0]))
        self.assertEqual(len(self.asked), 2)

    def test_the_oldest_go_first(self) -> None:
        folder = self.folder / "caches" / "some"
        for number in range(4):
            keep(folder / str(number), b"x" * 10, 9, 25)
            os.utime(folder / str(number), (number, number))
        keep(folder / "4", b"x" * 10, 9, 25)
        self.assertEqual(sorted(path.name for path in folder.iterdir()), ["3", "4"])
        keep(folder / "5", b"", 1)
        self.assertEqual([path.name for path in folder.iterdir()], ["5"])

    def test_that_it_takes_long_is_told(self) -> None:
        def slow(*asked: object) -> str:
            time.sleep(0.3)
            return "PROVED 0 OF 16\n"

        with mock.patch.object(progress, "QUIET", 0.05), mock.patch.object(proving, "plain_answer", slow):
            errors = self.check("--no-page", proofs=EQUIVALENTS)[2]
        self.assertIn("mutants check: asking which of 16 mutants are proved equivalent\n", errors)


if __name__ == "__main__":
    unittest.main()
