"""All programs of a folder in one call: the sections of its file, a line on each, the worst status, the index."""

import sys
import unittest

from proved import mutants
from mutants import statuses
from room import GREAT, Room
from running import has, refuses

PROGRAMS = """\
[mutants]
ops = ROR RSR SAN SDL
no-proofs = yes

[least]
source = least.f
tests = tests.csv

[greatest]
source = great.f
tests = great.csv
ops = ROR
fail_under = 99
page = pages of it.html
"""
TOML = """\
[mutants]
no-proofs = true
[great]
source = "great.f"
tests = "great.csv"
ops = ["ROR", "SDL"]
fail-under = 12.5
"""


class Folder(Room):
    def setUp(self) -> None:
        super().setUp()
        self.put("great.f", GREAT)
        self.put("great.csv", "I,J,K,expect\n1,2,0,K=2\n2,1,0,\n")

    def tool(self, name: str, *words: object) -> tuple[int, str, str]:
        return mutants(name, *words, ops="")

    def test_all_are_checked_and_the_worst_status_counts(self) -> None:
        self.put("mutants.ini", PROGRAMS)
        status, out, _ = self.tool("check", self.folder)
        self.assertEqual(status, statuses.BELOW)
        has(self, out, "least.f: Score 93.75 %: 15 of 16 mutants killed, ", "great.f: Score 85.71 %", " BELOW.\n")
        index = (self.folder / "mutants.html").read_text()
        has(self, index, '<a href="least.html">least.f</a>', '<a href="pages%20of%20it.html">great.f</a>')
        has(self, index, "2 programs, 1 with something wrong.", "BELOW: the score", '<td class="n">93.75</td>')
        self.assertTrue((self.folder / "pages of it.html").exists())
        self.put("great.csv", "I,J,K,expect\n1,2,0,K=1\n")
        status, out, _ = self.tool("check", self.folder)
        self.assertEqual((status, "  Since the last check (85.71 %)" in out), (statuses.UNEXPECTED, True))
        self.put("mutants.ini", PROGRAMS + "[gone]\nsource = gone.f\ntests = gone.csv\n")
        status, out, _ = self.tool("check", "--no-page", self.folder)
        self.assertEqual((status, "gone.f: FAULT: " in out, "least.f: Score" in out), (statuses.FAULT, True, True))

    def test_a_program_alone_has_its_tests_and_options_in_every_subcommand(self) -> None:
        self.put("mutants.ini", PROGRAMS)
        great = self.folder / "great.f"
        status, out, _ = self.tool("check", "--no-page", great)
        self.assertEqual((status, "6 of 7 mutants killed" in out), (statuses.BELOW, True))
        self.assertIn("6 of 6 mutants killed", self.tool("check", "--no-page", "--ops", "SDL,RSR", great)[1])
        self.assertIn('"suite": [\n  [1, 2, 0]', self.tool("job", great)[1])
        self.assertIn("2 tests", self.tool("suggest", "--rounds", "1", great)[1])
        self.assertIn("which mutants the tests kill", self.tool("page", great)[1])
        self.put("great.csv", "1,2\n")
        refuses(self, self.tool("explain", great), "great.csv: row 1 has 2 cells")
        self.put("great.csv", "I,J,K,expect\n1,2,0,K=2\n2,1,0,\n")
        self.assertEqual(self.tool("approve", great)[0], 0)
        self.assertIn("2,1,0,2 1 2", (self.folder / "great.csv").read_text())

    def test_the_index_takes_no_place_of_a_page_that_somebody_wrote(self) -> None:
        self.put("mutants.ini", PROGRAMS)
        other = self.put("mutants.html", "mine")
        refuses(self, self.tool("check", self.folder), "mutants.html: no check has written it")
        for _ in range(2):
            self.assertEqual(self.tool("check", "--page", self.folder / "i.html", self.folder)[0], statuses.BELOW)
        self.assertEqual(other.read_text(), "mine")

    def test_what_does_not_serve_is_one_line(self) -> None:
        for text, words, told in (
            (None, [], "there is neither mutants.ini nor mutants.toml"),
            ("[mutants]\n", [], "it names no program"),
            ("[a]\ntests = x\n", [], "[a] has tests, and no source"),
            ("[a]\nx = y\n", [], "it has neither a section [mutants] nor one with a source"),
            (PROGRAMS, ["--json", "x.json"], "--json is of one program"),
            (PROGRAMS, [self.folder], "it is a folder, whose file of options names the tests"),
        ):
            if text is not None:
                self.put("mutants.ini", text)
            refuses(self, self.tool("check", *words, self.folder), told)
        self.put("mutants.ini", "[mutants]\n")
        refuses(self, self.tool("check", self.program), "there is no table of its tests")
        self.put("mutants.ini", PROGRAMS.replace("ops", "sshlogin"))
        refuses(self, self.tool("check", self.folder / "great.f"), "sshlogin is for the command line alone")

    @unittest.skipUnless(sys.version_info >= (3, 11), "this Python has no tomllib")
    def test_toml(self) -> None:
        self.put("mutants.toml", TOML)
        status, out, _ = self.tool("check", "--no-page", self.folder)
        self.assertEqual((status, "9 of 10 mutants killed" in out), (0, True), out)


if __name__ == "__main__":
    unittest.main()
