"""What forges read: SARIF by its published schema, Markdown by the rules of its tables; and a revision of git."""

import json
import re
import subprocess
import unittest
from typing import Any

from mutants.checks.revisions import bytes_at
from room import GREAT, Room
from running import LEAST, has, refuses
from schemas import faults, schema_of


class Sarif(Room):
    def log(self, *words: object) -> dict[str, Any]:
        path = self.folder / "m.sarif"
        status, _, errors = self.check("--no-page", "--sarif", path, *words)
        self.assertEqual((status, errors), (0, ""))
        found: dict[str, Any] = json.loads(path.read_text())
        # The part of the schema of SARIF 2.1.0 (OASIS) that has the members that are written; others are refused.
        self.assertEqual(list(faults(found, schema_of("sarif"))), [])
        return found

    def test_each_survivor_is_a_result_at_its_place(self) -> None:
        self.program = self.put("a b.f", LEAST)
        (run,) = self.log()["runs"]
        (result,) = run["results"]
        place = result["locations"][0]["physicalLocation"]
        self.assertTrue(place["artifactLocation"]["uri"].endswith("/a%20b.f"))
        region = place["region"]
        line = LEAST.split("\n")[region["startLine"] - 1]
        self.assertEqual(line[region["startColumn"] - 1 : region["endColumn"] - 1], ".LT.")
        self.assertEqual(run["tool"]["driver"]["rules"][result["ruleIndex"]]["id"], "ROR")
        self.assertIn("ROR 1 survives: IF (J[.LT. -> .LE.]I) K=J.", result["message"]["text"])

    def test_a_result_is_found_again_where_its_line_has_moved(self) -> None:
        prints = []
        for source in (LEAST, "C\n" + LEAST):
            self.program.write_text(source)
            prints.append([each["partialFingerprints"] for each in self.log()["runs"][0]["results"]])
        self.assertEqual(prints[0], prints[1])
        self.put("tests.csv", "1,2,0\n")
        found = [each["partialFingerprints"]["texts/v1"] for each in self.log()["runs"][0]["results"]]
        self.assertEqual((len(found), len(set(found))), (8, 8))

    def test_without_a_survivor_there_is_no_result(self) -> None:
        self.assertEqual(self.log("--lines", "3")["runs"][0]["results"], [])


class Markdown(Room):
    def told(self, *words: object) -> str:
        path = self.folder / "m.md"
        self.check("--no-page", "--markdown", path, *words)
        return path.read_text()

    def test_tables_are_as_forges_take_them(self) -> None:
        """GitHub Flavored Markdown, 4.10: a row of heads, a row of delimiters with as many cells, rows of cells."""
        self.put("tests.csv", "1,2,0\n")
        rows = [line for line in self.told().split("\n") if line.startswith("|")]
        cells = [re.split(r"(?<!\\)\|", row) for row in rows]
        self.assertEqual({len(each) for each in cells}, {6})
        self.assertTrue(all(re.fullmatch(r" :?-+:? ", each) for each in cells[1][1:-1]))
        has(self, rows[2], "| 4 | `IF (J.LT.I) K=J` | 8 of 13 |", "ROR 1 `IF (J[.LT. -> .LE.]I) K=J`<br>", "and 5 more")

    def test_the_score_and_what_is_wrong(self) -> None:
        self.put("tests.csv", "I,J,K,expect\n1,2,0,K=9\n2,1,0,\n")
        out = self.told()
        has(self, out, "### LEAST of ", "**Score 93.75 %: 15 of 16 mutants killed, ")
        has(self, out, ".**\n\n- NOT AS EXPECTED: 1 test.")
        old = self.folder / "old.json"
        self.check("--no-page", "--json", old)
        self.put("tests.csv", "1,2,0\n")
        has(self, self.told("--baseline", old), "- NEWLY SURVIVING: ", "7 mutants newly surviving")
        self.assertIn("No mutant survives", self.told("--lines", "3"))


class Revisions(Room):
    def git(self, *words: str) -> None:
        who = ["-c", "user.name=x", "-c", "user.email=x@x"]
        subprocess.run(["git", "-C", str(self.folder), *who, *words], check=True, capture_output=True)

    def test_the_statements_that_a_revision_has_not(self) -> None:
        try:
            self.git("init")
        except FileNotFoundError:
            self.skipTest("git is not installed")
        self.program.write_text(GREAT)
        self.git("add", "least.f")
        self.git("commit", "-m", "x")
        self.program.write_text(LEAST)
        self.assertEqual(bytes_at(self.program, "HEAD").decode(), GREAT)
        out = self.check("--no-page", "--since", "HEAD")[1]
        has(self, out, "12 of 13 mutants killed", f"that are the same in {self.program} at HEAD.")
        for revision, told in (("gone", "--since gone: "), ("-x", "is no revision"), ("HEAD:x", "is no revision")):
            refuses(self, self.check("--no-page", f"--since={revision}"), told)
        self.put("mutants.ini", "[mutants]\nsince = HEAD\n")
        refuses(self, self.check(), "since is for the command line alone")


if __name__ == "__main__":
    unittest.main()
