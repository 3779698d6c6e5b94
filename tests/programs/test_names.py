"""Names and cells with characters that a terminal obeys, or that are none of UTF-8 or XML."""

import os
import unittest
from xml.etree import ElementTree

from proved import mutants
from room import Room
from running import LEAST

RED = "\x1b[31m"


class Names(Room):
    def name(self, name: str) -> None:
        self.program = self.program.rename(self.folder / name)

    def test_a_name_that_is_no_utf_8_fails_behind_no_work(self) -> None:
        self.name(os.fsdecode(b"m\xfcller.f"))
        files = {option: self.folder / option for option in ("json", "csv", "junit", "report")}
        words = [word for option, path in files.items() for word in (f"--{option}", path)]
        status, out, errors = self.check(*words)
        self.assertEqual((status, errors), (0, ""))
        for path in files.values():
            path.read_text("utf-8")

    def test_a_report_of_tests_is_well_formed(self) -> None:
        self.name("a\x01<\x1b.f")
        junit = self.folder / "junit.xml"
        self.assertEqual(self.check("--no-page", "--junit", junit)[0], 0)
        case = ElementTree.parse(junit).getroot().find(".//testcase")
        self.assertTrue(case is not None and case.get("classname", "").endswith("a\ufffd<\ufffd.f"))

    def test_no_escape_sequence_reaches_a_terminal(self) -> None:
        self.name(f"{RED}x.f")
        self.put("tests.csv", f"I,J,K,expect\n1,2,0,K=1{RED}\n2,1,0,K={RED}7\n")
        for words in (["--all"], ["--no-page", "--equivalent", f"gone{RED}"]):
            ended = self.check(*words)
            self.assertNotIn("\x1b", ended[1] + ended[2])
        self.program.write_text(f"{RED}\n{LEAST}")
        for tool, words in (("suggest", ["--rounds", "1"]), ("explain", []), ("page", []), ("job", [])):
            ended = mutants(tool, *words, self.program, self.tests)
            self.assertNotIn("\x1b", ended[1] + ended[2], tool)


if __name__ == "__main__":
    unittest.main()
