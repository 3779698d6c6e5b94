"""A release: what its wheel has, what it says of itself, and that a machine with Python alone gets its score by it."""

import json
import os
import subprocess
import sys
import zipfile
from pathlib import Path
from unittest import mock

from proved import EQUIVALENTS, MOTHRA, OPS
from room import Room
from developing import release
from mutants import statuses
from running import Ended, has, refuses, run

SAID = {"git status": "", "git rev-parse": "0123456789abcdef", "rt version": "kit 1"}


class Release(Room):
    def setUp(self) -> None:
        super().setUp()
        self.gate = self.put("gate.log", "mothra: proved\n12 passed, 0 failed\n")

    def released(self, **said: str) -> Ended:
        texts = SAID | said
        programs = {"mothra": Path(MOTHRA), "equivalents": Path(EQUIVALENTS)}
        said_by = mock.patch.object(release, "said_by", lambda *words: texts[" ".join(words[:2])])
        with said_by, mock.patch.object(release, "PROGRAMS", programs):
            return run("release", "--into", self.folder / "out", self.gate)

    def installed(self, *words: object) -> "subprocess.CompletedProcess[str]":
        """A call of the command as the wheel has it, with nothing on the path."""
        (wheel,) = (self.folder / "out").glob("*.whl")
        site = self.folder / "site"
        with zipfile.ZipFile(wheel) as files:
            files.extractall(site)
            for entry in files.infolist():
                os.chmod(site / entry.filename, entry.external_attr >> 16)
        bare = {"PYTHONPATH": str(site), "PATH": "", "HOME": "/none"}
        call = [sys.executable, "-B", "-m", "mutants", *map(str, words)]
        return subprocess.run(call, cwd=self.folder, env=bare, capture_output=True, text=True)

    def test_the_wheel_gives_the_score_and_says_what_is_proved(self) -> None:
        status, out, errors = self.released()
        self.assertEqual((status, errors), (statuses.SUCCESS, ""))
        ended = self.installed("check", "--no-page", "--no-proofs", "--ops", OPS, self.program, self.tests)
        self.assertEqual(ended.returncode, statuses.SUCCESS, ended.stderr)
        has(self, ended.stdout, "15 of 16 mutants killed, ")
        has(self, ended.stdout, "The program mothra is proved: commit 0123456789ab, kit 1, gate: 12 passed, 0 failed.")
        self.assertNotIn("unproved", ended.stdout + ended.stderr)

    def test_another_program_in_its_place_is_not_taken(self) -> None:
        self.released()
        self.installed("--version")
        (self.folder / "site" / "mutants" / "programs" / "mothra").write_text("#!/bin/sh\necho 1\n")
        with zipfile.ZipFile(next((self.folder / "out").glob("*.whl"))) as files:
            facts = json.loads(files.read("mutants/programs/release.json"))
        self.assertEqual(facts["gate"], "12 passed, 0 failed")
        bare = {"PYTHONPATH": str(self.folder / "site"), "PATH": "", "HOME": "/none"}
        call = [sys.executable, "-B", "-m", "mutants", "check", str(self.program), str(self.tests)]
        ended = subprocess.run(call, cwd=self.folder, env=bare, capture_output=True, text=True)
        self.assertEqual(ended.returncode, statuses.FAULT)
        self.assertIn("the program mothra is not found", ended.stderr)

    def test_the_page_and_the_digests_stand_beside_it(self) -> None:
        self.released()
        page = (self.folder / "out" / "RELEASE.md").read_text()
        has(self, page, "| `0123456789abcdef` | `kit 1` | `12 passed, 0 failed` |")
        ended = subprocess.run(["sha256sum", "-c", "SHA256SUMS"], cwd=self.folder / "out", capture_output=True)
        self.assertEqual(ended.returncode, 0)

    def test_a_gate_that_failed_and_files_that_changed_make_none(self) -> None:
        refuses(self, self.released(**{"git status": " M mutants/words.py"}), "not committed: mutants/words.py")
        for text in ("", "12 passed, 1 failed\n", "12 passed, 0 failed (mothra alone: not the gate)\n",
                     "12 passed, 0 failed\nFAILED (failures=1)\n"):  # fmt: skip
            self.gate.write_text(text)
            refuses(self, self.released(), "gate.log: its last line is no gate's that passed")
        self.assertFalse((self.folder / "out").exists())

    def test_the_tag_names_the_c_library_that_is_needed(self) -> None:
        programs = {"mothra": b"..GLIBC_2.17\0GLIBC_2.34\0", "equivalents": b"GLIBC_2.2.5\0"}
        self.assertIn("py3-none-manylinux_2_34_", release.tag_of(programs))
        self.assertIn("py3-none-linux_", release.tag_of({"mothra": b""}))
