"""What is written with an unproved build says so in all that has room for it; here mothra is kept as one."""

import json
import os
import unittest
import xml.etree.ElementTree as xml
from unittest import mock

import running
from proved import MOTHRA, mutants
from room import Room
from mutants import statuses
from mutants.program import unproved
from running import has
from schemas import report_faults


class Unproved(Room):
    def setUp(self) -> None:
        super().setUp()
        self.kept = self.folder / "mutants" / "unproved-mothra"
        self.kept.parent.mkdir()
        self.kept.symlink_to(MOTHRA)
        running.holds(self, mock.patch.dict(os.environ, {"XDG_CACHE_HOME": str(self.folder)}))

    def test_pages_and_texts_say_so_and_those_of_another_program_do_not(self) -> None:
        for tool in ("page", "explain"):
            status, out, errors = mutants(tool, self.program, self.tests, program=self.kept)
            self.assertEqual((status, errors), (statuses.SUCCESS, f"{self.kept}: {unproved.SAID}\n"))
            has(self, out, f"This is of {unproved.SAID}.")
        self.kept.unlink()
        for tool in ("page", "explain"):
            status, out, errors = mutants(tool, self.program, self.tests)
            self.assertEqual((status, errors, "unproved" in out), (statuses.SUCCESS, "", False))

    def test_the_summary_and_the_files_say_so(self) -> None:
        paths = {name: self.folder / name for name in ("m.json", "m.xml")}
        words = ["--json", paths["m.json"], "--junit", paths["m.xml"]]
        status, out, errors = self.check(*words, program=self.kept)
        remark = f"This is of {unproved.SAID}."
        self.assertEqual((status, errors), (0, f"{self.kept}: {unproved.SAID}\n"))
        self.assertEqual(out.splitlines()[-1], remark)
        has(self, (self.folder / "least.html").read_text(), remark)
        report = json.loads(paths["m.json"].read_text())
        self.assertEqual((report_faults(report), report["framework"]["name"]), ([], f"mutants. {remark}"))
        told = xml.parse(paths["m.xml"]).getroot()[0][0][0]
        self.assertEqual((told.tag, told.get("value")), ("property", remark))


if __name__ == "__main__":
    unittest.main()
