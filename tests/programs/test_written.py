"""Files that a check writes: before its summary, never in the place of what it reads or of what others wrote."""

import json
import os
import time
import unittest
from collections.abc import Callable
from functools import partial
from pathlib import Path
from unittest import mock

from proved import MOTHRA, OPS, mutants
from room import DECLARED, TWO, Room
from mutants import files
from mutants.declarations.entries import read_entries
from running import LEAST, Copy, refuses, run_apart


class Written(Room):
    def test_standard_output_has_it_before_the_summary(self) -> None:
        words = ["--mothra", MOTHRA, "--no-proofs", "--no-page", "--ops", OPS, "--json", "/dev/stdout"]
        status, out, errors = run_apart("check", *words, self.program, self.tests)
        self.assertEqual((status, errors), (0, ""))
        report, _, rest = out.partition("\n")
        self.assertEqual(len(json.loads(report)["files"][str(self.program)]["mutants"]), 16)
        self.assertTrue(rest.startswith("LEAST of "), rest[:60])

    def test_a_page_of_another_hand_is_not_replaced_unless_it_is_asked_for(self) -> None:
        page = self.put("least.html", "<h1>My notes</h1>")
        refuses(self, self.check(), f"{page}: no check has written it", f"--page {page}")
        settings = self.put("mutants.ini", "[mutants]\npage = least.html\n")
        refuses(self, self.check(), f"{page}: no check has written it")
        settings.unlink()
        self.assertEqual(page.read_text(), "<h1>My notes</h1>")
        self.assertEqual(self.check("--page", page)[0], 0)
        self.assertEqual(self.check()[0], 0)


def replace_late(replace: Callable[[Path, bytes], None], path: Path, data: bytes) -> None:
    """Leaves others the time to read what is replaced then."""
    time.sleep(0.05)
    replace(path, data)


class Declared(Room):
    def test_those_who_declare_at_once_lose_no_entry(self) -> None:
        words = ["--mothra", MOTHRA, "--no-proofs", "--reason", "so", self.program]
        with mock.patch.object(files, "replaced", partial(replace_late, files.replaced)):
            copies = [Copy("declare", [*words, "ROR", number]) for number in range(1, 8)]
        ended = [copy.ended() for copy in copies]
        self.assertEqual([(status, errors) for status, _, errors in ended], [(0, "")] * 7)
        entries = read_entries((self.folder / "least.equivalent.csv").read_text())
        self.assertEqual(sorted(entry.name for entry in entries), [f"ROR {number}" for number in range(1, 8)])
        self.assertEqual(self.names(), ["least.equivalent.csv", "least.f", "tests.csv"])

    def test_a_file_of_a_spreadsheet_is_read_and_written(self) -> None:
        path = self.folder / "least.equivalent.csv"
        path.write_bytes(DECLARED.replace("a mistake", "f\u00fcr nichts").replace("\n", "\r\n").encode("latin-1"))
        self.assertIn("KILLED, f\u00fcr nichts\n", self.check("--no-page")[1])
        ended = mutants("declare", self.program, "ROR", "2", "--reason", "none")
        self.assertEqual((ended[0], ended[2]), (0, ""))
        found = read_entries(path.read_bytes().decode())
        self.assertEqual([entry.reason for entry in found], ["J and I are the same then", "f\u00fcr nichts", "none"])


class Refused(Room):
    def test_what_is_read_is_never_written(self) -> None:
        names, expect = self.put("names.csv", DECLARED), self.put("expect.txt", "\n\n")
        old, link = self.put("old.f", LEAST), self.folder / "link"
        link.symlink_to(self.tests)
        words = ["--equivalent", names, "--expect", expect, "--changed", old]
        for option, path in (
            ("--csv", self.tests), ("--page", self.program), ("--json", names), ("--junit", expect), ("--report", old),
            ("--csv", link),
        ):  # fmt: skip
            with self.subTest(option, path=path):
                refuses(self, self.check(*words, option, path), f"{path}: the check reads it")
        self.assertEqual((self.tests.read_text(), self.program.read_text()), (TWO, LEAST))

    def test_two_files_of_one_name_and_a_folder(self) -> None:
        one = self.folder / "x"
        refuses(self, self.check("--json", one, "--csv", one), "x: two files are to be written there")
        refuses(self, self.check("--json", self.folder), "it is a folder, and the mutants in JSON is a file")
        with mock.patch.object(os, "access", return_value=False):
            refuses(self, self.check(), f"least.html: nothing may be written in the folder {self.folder}")
        self.assertEqual(self.names(), ["least.f", "tests.csv"])

    def test_what_is_no_file_on_a_disk_may_be_named_twice(self) -> None:
        ended = self.check("--no-page", "--json", os.devnull, "--csv", os.devnull)
        self.assertEqual((ended[0], ended[2]), (0, ""))


if __name__ == "__main__":
    unittest.main()
