"""The words of a check, and of the file beside a program: what comes first, what is refused."""

import sys
import unittest

from room import DECLARED, Room
from mutants import statuses
from running import has, refuses


class Lists(Room):
    def test_a_check_takes_them(self) -> None:
        status, out, errors = self.check("--no-page", "--ops", "ror,", "sdl")
        self.assertEqual((status, errors), (0, ""))
        self.assertIn("9 of 10 mutants killed", out)
        errors = self.check("--except", "ror,", "sld")[2]
        self.assertIn("'sld' is no code of an operator; is SDL meant, statement deletion? The codes are AAR, ", errors)
        self.assertIn("'XYZ' is no code of an operator; the codes are AAR, ", self.check("--ops", "XYZ")[2])


class Percentages(Room):
    def test_a_limit_is_told_with_all_its_digits(self) -> None:
        status, out, _ = self.check("--no-page", "--fail-under", "93.7500001")
        self.assertEqual(status, statuses.BELOW)
        self.assertIn("BELOW --fail-under: the score is below 93.7500001 %.", out)


class Settings(Room):
    def test_a_file_without_the_section_is_refused(self) -> None:
        for text in ("", "[mutant]\nfail-under = 99\n"):
            self.put("mutants.ini", text)
            refuses(self, self.check(), "mutants.ini: it has neither a section [mutants] nor one with a source")

    @unittest.skipUnless(sys.version_info >= (3, 11), "this Python has no tomllib")
    def test_and_so_is_one_in_toml(self) -> None:
        for text in ("fail-under = 99\n", "mutants = 99\n"):
            self.put("mutants.toml", text)
            refuses(self, self.check(), "mutants.toml: it has neither a section [mutants] nor one with a source")

    def test_what_the_command_line_declares_comes_first(self) -> None:
        names = self.put("names.csv", DECLARED)
        self.put("mutants.ini", "[mutants]\nequivalent = names.csv\nno-page = yes\n")
        self.assertIn("15 of 15 mutants killed", self.check()[1])
        self.assertIn("15 of 16 mutants killed", self.check("--undeclared")[1])
        self.put("mutants.ini", "[mutants]\nundeclared = yes\nno-page = yes\n")
        self.assertIn("15 of 16 mutants killed", self.check()[1])
        self.assertIn("15 of 15 mutants killed", self.check("--equivalent", names)[1])
        self.assertEqual(self.check("--equivalent", names, "--undeclared")[0], statuses.WORDS)


class Expectations(Room):
    def test_blank_lines_at_the_end_expect_nothing(self) -> None:
        self.put("tests.csv", "1,2,0\n2,1,0\n3,3,0\n")
        for text in ("K=1\n\n\n", "\nK=1\n\n", "K=1\r\n\r\n\r\n", "K=1\nK=1\nK=3\n\n\n"):
            with self.subTest(text):
                status, out, errors = self.check("--no-page", "--expect", self.put("e.txt", text))
                self.assertEqual((status, errors), (0, ""))
                has(self, out, f"As expected on {'3 tests' if 'K=3' in text else '1 test'}.")
        for text, lines in (("K=1\n", 1), ("K=1\n\n", 2), ("1 2 1\n2 1 1\n3 3 3\nK=4\n", 4)):
            refuses(self, self.check("--expect", self.put("e.txt", text)), f"it has {lines} outcomes for 3 tests")

    def test_null_in_a_table_in_json_expects_nothing(self) -> None:
        self.tests = self.put("tests.json", '[["expect","I","J","K"],[null,1,2,0],["K=1",2,1,0]]')
        status, out, errors = self.check("--no-page")
        self.assertEqual((status, errors), (0, ""))
        has(self, out, "As expected on 1 test.")


if __name__ == "__main__":
    unittest.main()
