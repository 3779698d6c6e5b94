"""What other programs read: the mutation report and its schema, the table, the report of tests."""

import copy
import csv
import json
import unittest
import xml.etree.ElementTree as xml
from typing import Any

from room import DECLARED, Room
from mutants.exports.rows import COLUMNS
from running import LEAST, has
from schemas import report_faults

SOURCE = """\
C     K becomes the lesser of I and J.
      SUBROUTINE LEAST(I,J,K)
      K = I
      IF ( J .LT.
C     (so it goes on)
     &     I )  K  = J
      END
"""


class Exports(Room):
    def exported(self, *words: object) -> dict[str, Any]:
        path = self.folder / "m.json"
        status, _, errors = self.check("--no-page", "--json", path, *words)
        self.assertEqual((status, errors), (0, ""))
        report: dict[str, Any] = json.loads(path.read_text())
        self.assertEqual(report_faults(report), [])
        return report

    def mutants(self, *words: object) -> dict[str, dict[str, Any]]:
        report = self.exported(*words)
        return {mutant["id"]: mutant for mutant in report["files"][str(self.program)]["mutants"]}


class Reports(Exports):
    def test_the_whole_of_it(self) -> None:
        report = self.exported()
        self.assertEqual(report["thresholds"], {"high": 80, "low": 60})
        self.assertEqual(report["framework"]["name"], "mutants")
        self.assertEqual(report["files"][str(self.program)]["source"], LEAST)
        tests = report["testFiles"][str(self.tests)]["tests"]
        self.assertEqual(tests, [{"id": "1", "name": "[1, 2, 0]"}, {"id": "2", "name": "[2, 1, 0]"}])
        self.assertEqual(len(self.mutants()), 16)

    def test_the_statuses(self) -> None:
        names = self.put("names.csv", DECLARED)
        found = self.mutants("--equivalent", names)
        self.assertEqual(
            (found["ROR 1"]["status"], found["ROR 1"]["statusReason"]),
            ("Ignored", "declared equivalent: J and I are the same then"),
        )
        self.assertEqual((found["SDL 2"]["status"], found["SDL 2"]["killedBy"]), ("Killed", ["2"]))
        self.assertIn("a test kills it", found["SDL 2"]["statusReason"])
        self.assertEqual(self.mutants()["ROR 1"]["status"], "Survived")
        self.assertEqual(self.mutants("--ops", "ROR")["ROR 1"]["coveredBy"], ["1", "2"])
        self.put("tests.csv", "")
        self.assertEqual({each["status"] for each in self.mutants().values()}, {"NoCoverage"})

    def test_places_are_those_of_the_source_as_it_is_written(self) -> None:
        self.program.write_text(SOURCE)
        found = self.mutants()
        for name, place, new in (
            ("ROR 1", (4, 14, 4, 18), ".LE."), ("ROR 6", (4, 12, 6, 13), ".TRUE."),
            ("SDL 1", (3, 7, 3, 12), "CONTINUE"), ("SDL 3", (6, 17, 6, 23), "CONTINUE"),
            ("SAN 2", (4, 7, 6, 23), "TRAP"),
        ):  # fmt: skip
            at = found[name]["location"]
            self.assertEqual((*at["start"].values(), *at["end"].values()), place, name)
            self.assertEqual(found[name]["replacement"], new)

    def test_a_report_that_is_none_is_found_out(self) -> None:
        good = self.exported()
        mutant = good["files"][str(self.program)]["mutants"][1]
        for name, value in (
            ("status", "Dead"), ("id", 7), ("id", "ROR 1"), ("killedBy", ["9"]), ("coveredBy", []), ("other", 1),
            ("location", {"start": {"line": 1, "column": 0}, "end": {"line": 1, "column": 1}}),
            ("location", {"start": {"line": 1, "column": 2}, "end": {"line": 1, "column": 2}}),
        ):  # fmt: skip
            wrong = copy.deepcopy(good)
            wrong["files"][str(self.program)]["mutants"][1] = {**mutant, name: value}
            with self.subTest(name, value=value):
                self.assertTrue(report_faults(wrong))
        for name in ("schemaVersion", "thresholds", "files"):
            self.assertTrue(report_faults({key: value for key, value in good.items() if key != name}))


class Tables(Exports):
    def test_a_row_a_mutant(self) -> None:
        path = self.folder / "m.csv"
        self.check("--no-page", "--csv", path, "--lines", "4")
        with open(path, newline="") as file:
            rows = list(csv.DictReader(file))
        self.assertEqual(list(rows[0]), COLUMNS)
        self.assertEqual(len(rows), 13)
        first = ["ROR 1", "ROR", "4", "Survived", "no", "", "IF (J.LT.I) K=J", "IF (J.LE.I) K=J", "", "1 2", ""]
        self.assertEqual(list(rows[0].values()), first)

    def test_a_test_case_for_each_line(self) -> None:
        path = self.folder / "m.xml"
        self.check("--no-page", "--junit", path)
        suite = xml.parse(path).getroot()[0]
        self.assertEqual((suite.get("name"), suite.get("tests"), suite.get("failures")), ("LEAST", "2", "1"))
        names = [(case.get("name"), len(case)) for case in suite]
        self.assertEqual(names, [("line 3: K=I", 0), ("line 4: IF (J.LT.I) K=J", 1)])
        self.assertEqual(suite[1][0].get("message"), "1 of 13 mutants survives")
        self.assertEqual(suite[1][0].text, "ROR 1: IF (J.LE.I) K=J")
        self.check("--no-page", "--junit", path, "--equivalent", self.put("names.json", '["ROR 1"]'))
        self.assertEqual(xml.parse(path).getroot()[0].get("failures"), "0")

    def test_they_are_named_and_their_folders_are_seen_first(self) -> None:
        words = ["--csv", self.folder / "a", "--junit", self.folder / "b", "--json", self.folder / "c"]
        out = self.check("--no-page", *words)[1]
        has(self, out, f"The mutants in JSON: {self.folder / 'c'}", "The table of mutants: ", "The report of tests: ")
        self.assertEqual(self.check("--no-page", "--csv", self.folder / "none" / "a")[1], "")


if __name__ == "__main__":
    unittest.main()
