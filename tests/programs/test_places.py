"""Places and texts are those of the file as it is written: with tabs, other units, and bounds that are no numbers."""

import unittest

from test_exports import Exports
from room import GREAT
from running import LEAST, refuses

TABS = "\tSUBROUTINE LEAST(I,J,K)\n\tK=I\n      IF ( J .LT.\n\t1 I ) K =\tJ\n\tEND\n"
SIZED = "      SUBROUTINE LEAST(N,X,K)\n      INTEGER   X( N ), LARGEST\n      K=N\n      END\n"


class Files(Exports):
    def place(self, name: str, *words: object) -> tuple[int, ...]:
        at = self.mutants(*words)[name]["location"]
        return (*at["start"].values(), *at["end"].values())

    def test_tabs_count_as_one_column(self) -> None:
        self.program.write_text(TABS)
        for name, place in (
            ("SDL 1", (2, 2, 2, 5)), ("ROR 1", (3, 14, 3, 18)), ("ROR 6", (3, 12, 4, 5)), ("SDL 3", (4, 8, 4, 13)),
        ):  # fmt: skip
            self.assertEqual(self.place(name, "--expand-tabs"), place, name)
        report = self.exported("--expand-tabs")
        self.assertEqual(report["files"][str(self.program)]["source"], TABS)

    def test_the_source_has_the_other_units_and_the_lines_their_numbers(self) -> None:
        whole = LEAST + GREAT
        self.program.write_text(whole)
        report = self.exported("--unit", "GREAT")
        self.assertEqual(report["files"][str(self.program)]["source"], whole)
        self.assertEqual(self.place("ROR 1", "--unit", "GREAT"), (9, 12, 9, 16))

    def test_ends_of_lines_of_dos_and_latin_1(self) -> None:
        self.program.write_bytes(f"C     l'\u00e9t\u00e9\n{LEAST}".replace("\n", "\r\n").encode("latin-1"))
        self.assertEqual(self.place("ROR 1"), (5, 12, 5, 16))
        source = self.exported()["files"][str(self.program)]["source"]
        self.assertTrue(source.startswith("C     l'\u00e9t\u00e9\r\nC  "))

    def test_a_fault_is_told_with_the_line_of_the_file(self) -> None:
        self.program.write_text(SIZED)
        self.tests.write_text("1,1 2 3,0\n")
        told = "(FAULT S3 2): INTEGER X( N ), LARGEST\n"
        refuses(self, self.check("--size", "N=3"), "least.f, line 2: ", told)


if __name__ == "__main__":
    unittest.main()
