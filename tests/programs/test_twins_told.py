"""Mutants that are one program: shown once with all names, declared together, counted both ways."""

import csv
import json
import unittest

from proved import mutants
from room import Room
from running import Ended, has, refuses

# Its mutants of AOR put K=I-I, I*I, I/I and I**I there, and as left and as right operand K=I. Where I is 0 the third
# and the fourth trap, and the others leave 0 in K, as the program does.
TWICE = "      SUBROUTINE TWICE(I,K)\n      K=I+I\n      END\n"


class Told(Room):
    """A program of which AOR 5 is what AOR 6 is; no test here kills these."""

    def setUp(self) -> None:
        super().setUp()
        self.program = self.put("twice.f", TWICE)
        self.put("tests.csv", "0,7\n")

    def checked(self, *words: object) -> str:
        return self.check("--ops", "AOR", *words)[1]

    def test_a_survivor_once_with_all_its_names(self) -> None:
        out = self.checked()
        has(self, out, "Score 33.33 %: 2 of 6 mutants killed, ")
        has(self, out, "Some of the mutants are the same program: 2 of 5 different programs killed.\n")
        has(self, out, "4 survivors on 1 line, 3 different programs, each with what it changes:\n", "  AOR 5, 6  K=")
        page = (self.folder / "twice.html").read_text()
        self.assertEqual(page.count("<li><b>AOR 5, 6</b>"), 1)
        has(self, page, "4 survivors on 1 line, 3 different programs.")

    def test_exports(self) -> None:
        paths = [self.folder / name for name in ("m.csv", "m.json", "m.xml")]
        self.checked("--no-page", "--csv", paths[0], "--json", paths[1], "--junit", paths[2])
        with open(paths[0], newline="") as file:
            found = {row["mutant"]: row["twins"] for row in csv.DictReader(file)}
        self.assertEqual((found["AOR 5"], found["AOR 6"], found["AOR 4"]), ("AOR 6", "AOR 5", ""))
        files = json.loads(paths[1].read_text())["files"]
        told = {mutant["id"]: mutant["description"] for mutant in files[str(self.program)]["mutants"]}
        self.assertTrue(told["AOR 6"].endswith(": K=I (the same program as AOR 5)"), told["AOR 6"])
        has(self, paths[2].read_text(), "AOR 5, 6: K=I</failure>", "4 of 6 mutants survive")

    def declare(self, *words: object) -> Ended:
        return mutants("declare", self.program, *words)

    def test_declared_are_all_names(self) -> None:
        file = self.folder / "twice.equivalent.csv"
        told = f"{file}: 2 mutants declared, AOR 5 among them as the same program, and 0 before\n"
        self.assertEqual(self.declare("AOR", "6", "--reason", "the same"), (0, told, ""))
        refuses(self, self.declare("AOR", "5", "--reason", "again"), "AOR 5 is declared already")
        out = self.checked()
        has(self, out, "2 mutants declared equivalent:\n  AOR 5, 6  line 2: K=", ": the same\n")
        has(self, out, "2 of 4 different programs killed")
        has(self, (self.folder / "twice.html").read_text(), "<b>AOR 5, 6</b>")

    def test_one_that_is_declared_under_one_name_is_told(self) -> None:
        self.put("twice.equivalent.csv", "mutant,before,after,reason\nAOR 6,K=I+I,K=I,the same\n")
        out = self.checked("--no-page")
        has(self, out, "AOR 5 and AOR 6 are the same program, and only the last is declared equivalent (mutants decl")
        told = self.declare("AOR", "5", "--reason", "the same")[1]
        self.assertIn(": 1 mutant declared, and 1 before\n", told)


if __name__ == "__main__":
    unittest.main()
