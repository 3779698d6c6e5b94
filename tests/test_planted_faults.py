"""Planted faults: the copy that gets one, and what is said of a sweep that notices it or does not."""

import io
import unittest
from argparse import Namespace
from collections.abc import Sequence
from contextlib import redirect_stdout
from pathlib import Path
from unittest import mock

import running
from developing import planted_faults
from developing.antt.crates import read_crates
from developing.edits import wanted_edits
from developing.equivalents_sweep import Case, Killed, Programs, Tried
from mutants.program.roots import ROOT
from mutants.statuses import FAULT, SUCCESS
from mutants.texts.lines import Mutant
from mutants.texts.proofs import Answer, Proof

PROOF = Proof(Mutant("ABS", 1, 1, 3, "K=IABS(I)"))
NOTICED = (
    "noticed in 2 programs: 1 killed of 1 proved, 1 by rows of failed proofs alone; "
    "program 2: ABS 1 1 LINE 3 K=IABS(I), equivalent: killed by [-5] with --steps 10000, a row of a failed proof"
)


class Stored(unittest.TestCase):
    def test_each_fault_is_an_edit_of_the_repository(self) -> None:
        found = wanted_edits(read_crates(ROOT), planted_faults.FAULTS, True)
        self.assertEqual(sum(map(len, found.values())), len(set(planted_faults.FAULTS)))


class Planting(running.Folder):
    """A repository with a crate below equivalents. A program has the text of that crate, and the sweep notices what is
    wrong in it."""

    def setUp(self) -> None:
        super().setUp()
        self.texts = list[str]()
        self.put("crates.txt", "one:\nequivalents: one\n")
        self.put("HANDLES", "")
        for name, text in {
            "one/src/sum.rt": "x + 1\n", "one/out/kept": "", "equivalents/src/main.rt": "sum\n",
            "one/more-edits/unasked.edit": "file: src/sum.rt\nold: x + 1\nnew: wrong\n",
            "one/more-edits/same.edit": "file: src/sum.rt\nold: x + 1\nnew: 1 + x\n",
            "one/must-fail/gone.edit": "file: src/sum.rt\nold: y\nnew: z\n",
        }.items():  # fmt: skip
            self.put(f"crates/{name}", text)
        fakes = {"ROOT": self.folder, "build": self.build, "tried": self.tried}
        running.holds(self, mock.patch.multiple(planted_faults, **fakes))
        running.holds(self, mock.patch("developing.edits.ROOT", self.folder))

    def build(self, crate: Path, kept: Path, words: Sequence[str], job: bytes) -> bytes:
        self.assertEqual((crate.name, (crate.parent / "one" / "out").exists()), ("equivalents", False))
        kept.write_text((crate.parent / "one" / "src" / "sum.rt").read_text())
        return b""

    def tried(self, programs: Programs, case: Case) -> Tried:
        is_wrong = "wrong" in Path(programs.equivalents).read_text() and case.name == "program 2"
        killed = [Killed(PROOF, (-5,), 10000)] if is_wrong else []
        return Tried(Case(case.name, "      END\n"), 9, Answer([PROOF]), [(-5,)], {(-5,)}, killed)

    def run_tool(self, *names: str) -> tuple[int, list[str]]:
        given = Namespace(mothra="mothra", names=names, programs=3, seed=1, tests=256, rows=4, jobs=2)
        with redirect_stdout(io.StringIO()) as out:
            status = planted_faults.run(given, "tools/planted-faults")
        return status, out.getvalue().splitlines()

    def test_a_fault_that_is_noticed(self) -> None:
        self.assertEqual(self.run_tool("one/unasked"), (SUCCESS, [f"one/unasked: {NOTICED}", "1 noticed, 0 not"]))
        self.assertEqual((self.folder / "crates" / "one" / "src" / "sum.rt").read_text(), "x + 1\n")

    def test_faults_that_are_not(self) -> None:
        status, (bad, same, noticed, counts) = self.run_tool("one")
        self.assertEqual((status, counts), (FAULT, "1 noticed, 2 not"))
        self.assertTrue(bad.startswith("one/gone: BAD EDIT: an old text is in src/sum.rt 0 times"), bad)
        self.assertTrue(same.startswith("one/same: NOT NOTICED: 3 programs: 27 mutants, 3 proved"), same)
        self.assertTrue(noticed.startswith("one/unasked: noticed in 2 programs: "), noticed)


if __name__ == "__main__":
    unittest.main()
