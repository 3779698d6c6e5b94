"""The file of options beside a program: what it may set, what it may not, and which subcommands read it."""

import json
import unittest

from proved import mutants
from room import Room
from mutants.checks.settings import KEYS, OUTPUTS, parser_of
from mutants.subcommands import check
from running import LEAST, has, refuses

SIZED = """\
      SUBROUTINE LEAST(I,J,K)
      INTEGER I(NA),J(*),K
      END
"""


class Refused(Room):
    def test_no_key_names_a_machine_or_a_program(self) -> None:
        mark = self.folder / "ran"
        for key in ("sshlogin", "mothra", "equivalents"):
            with self.subTest(key):
                self.put("mutants.ini", f"[mutants]\n{key} = 1/sh -c 'touch {mark}' host\n")
                refuses(self, self.check(), "mutants.ini", f"{key} is for the command line alone")
                suggest = mutants("suggest", self.program, self.tests)
                refuses(self, suggest, f"{key} is for the command line alone")
        self.assertFalse(mark.exists())

    def test_each_option_is_in_the_list_or_refused(self) -> None:
        options = {option[2:] for action in parser_of(check.add_options)._actions for option in action.option_strings}
        self.assertEqual(options - KEYS, {"sshlogin", "since"})
        self.assertEqual(KEYS - options, set())

    def test_files_are_written_in_its_folder_alone(self) -> None:
        inside = self.folder / "inside"
        inside.mkdir()
        other = self.put("other.html", "mine")
        (inside / "link.html").symlink_to(other)
        (inside / "up").symlink_to(self.folder)
        program = inside / "least.f"
        program.write_text(LEAST)
        for key in OUTPUTS:
            for value in (str(other), "../other.html", "link.html", "up/other.html"):
                (inside / "mutants.ini").write_text(f"[mutants]\n{key} = {value}\n")
                with self.subTest(key, value=value):
                    ended = mutants("check", program, self.tests)
                    refuses(self, ended, f"{key} is {value}", "in the folder of the options alone")
        self.assertEqual(other.read_text(), "mine")


class Read(Room):
    def ended(self, tool: str, *words: object) -> str:
        """The output of a subcommand that ends well."""
        status, out, errors = mutants(tool, *words)
        self.assertEqual(status, 0, errors)
        return out

    def test_all_that_read_a_program_read_how(self) -> None:
        self.program.write_text(LEAST.replace("      ", "\t"))
        self.put("mutants.ini", "[mutants]\nexpand-tabs = yes\nno-proofs = yes\nreport = least.report\n")
        self.assertIn("SUBROUTINE LEAST", self.ended("job", self.program, self.tests))
        self.assertIn("15 of 16 mutants", self.ended("page", self.program, self.tests))
        self.assertIn("no fault", self.ended("explain", self.program, self.tests))
        self.assertIn("1 mutant declared", self.ended("declare", self.program, "ROR", "1", "--reason", "so"))
        self.assertNotIn("least.report", self.names())

    def test_a_size_serves_those_programs_that_have_the_bound(self) -> None:
        self.put("mutants.ini", "[mutants]\nsize = NA=3\n")
        self.assertIn("16 mutants", self.check()[1])
        refuses(self, self.check("--size", "NA=3"), "--size has NA, but no bound of an array is made of it")
        sized = self.put("sized.f", SIZED.replace("*", "3"))
        job = json.loads(self.ended("job", sized, self.put("sized.csv", "1 2 3,1 2 3,1\n")))
        self.assertIn("I(3),J(3)", job["source"])

    def test_what_is_told_of_bounds_is_told_of_those_that_are_left_open(self) -> None:
        self.program.write_text(SIZED)
        self.put("tests.csv", "1 2 3,1 2 3,1\n")
        ended = self.check("--size", "NA=3")
        has(self, ended[2], "The bound * of J leaves the size open", "INTEGER I(NA),J(*),K")
        self.assertNotIn("The bound NA", ended[2])


if __name__ == "__main__":
    unittest.main()
