"""What is no subroutine in fixed form: the source is read before the table, and what is told is told of it."""

import unittest

from proved import mutants
from room import Room
from running import refuses

# A source, what mothra says of it, and what is told.
UNITS = {
    "a function": ("      INTEGER FUNCTION F(N)\n      F=N\n      END\n", "S2 1", "FUNCTION begins a unit that gives"),
    "a main program": ("      PROGRAM MAIN\n      I=1\n      END\n", "S2 1", "PROGRAM begins a main program"),
    "free form": ("subroutine f(n)\n  n = 1\nend\n", "F5 1", "as in free form"),
    "an empty file": ("", "S7", "does not begin with a SUBROUTINE statement"),
}
TABLE = "N,expect\n3,6\n"


class Units(Room):
    def test_the_source_is_told_and_not_the_table(self) -> None:
        self.put("tests.csv", TABLE)
        for what, (source, fault, told) in UNITS.items():
            self.program.write_text(source)
            for tool in ("check", "suggest", "page"):
                with self.subTest(what, tool=tool):
                    refuses(self, mutants(tool, self.program, self.tests), "least.f", told)
            with self.subTest(what, tool="declare"):
                refuses(self, mutants("declare", self.program, "ROR", "1", "--reason", "none"), "least.f", told)
            with self.subTest(what, tool="explain"):
                status, out, errors = mutants("explain", self.program, self.tests)
                self.assertEqual((status, out.splitlines()[0], errors), (0, f"FAULT {fault}", ""))
            with self.subTest(what, tool="job"):
                refuses(self, mutants("job", self.program, self.tests), "does not begin with SUBROUTINE")

    def test_a_page_tells_the_line_that_keeps_a_subroutine_from_being_read(self) -> None:
        self.put("tests.csv", "3\n")
        self.program.write_text("C     A\n      SUBROUTINE F(N)\n      N=1\n      NO STATEMENT\n      END\n")
        told = ["least.f, line 4: This line holds no statement of the subset", "(FAULT S2 4): NO STATEMENT"]
        refuses(self, mutants("page", self.program, self.tests), *told)

    def test_utf_16_is_told_of_programs_and_tables(self) -> None:
        self.tests.write_bytes(TABLE.encode("utf-16"))
        refuses(self, self.check(), "tests.csv: it is a text in UTF-16: save it in UTF-8")
        self.program.write_bytes(self.program.read_text().encode("utf-16"))
        refuses(self, self.check(), "least.f: it is a text in UTF-16: save it in UTF-8")


if __name__ == "__main__":
    unittest.main()
