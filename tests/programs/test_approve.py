"""What the program does now, put into the column expect of a table."""

import unittest

from mutants import statuses
from proved import mutants
from room import GREAT, Room
from running import has, refuses


class Approve(Room):
    def approve(self, *words: object) -> tuple[int, str, str]:
        return mutants("approve", *words, self.program, self.tests)

    def test_empty_cells_are_filled_and_the_rest_stays_as_it_is(self) -> None:
        for text, filled in (
            ("1,2,0\n2,1,0\n", "I,J,K,expect\n1,2,0,1 2 1\n2,1,0,2 1 1\n"),
            ("J,I,K\r\n\r\n2,1,0\r\n", "J,I,K,expect\r\n\r\n2,1,0,1 2 1\r\n"),
            ('expect,I,J,K,"a, b"\n,1,2,0,"x, y"\n', 'expect,I,J,K,"a, b"\n1 2 1,1,2,0,"x, y"\n'),
            ("I,J,K,expect\n 1,2,0,K=1\n2,1,,\n", "I,J,K,expect\n 1,2,0,K=1\n2,1,,2 1 1\n"),
            ("", "I,J,K,expect\n"),
        ):
            with self.subTest(text):
                self.tests.write_bytes(text.encode())
                status, out, _ = self.approve()
                self.assertEqual((status, self.tests.read_bytes().decode()), (0, filled))
                self.assertIn(f"{self.tests}: ", out)
                self.assertEqual(self.check("--no-page")[0], 0)

    def test_each_outcome_is_told_and_a_later_check_tells_a_difference(self) -> None:
        self.put("tests.csv", "test,I,J,K\nfirst,1,2,0\n,2,1,0\n")
        out = self.approve()[1]
        has(self, out, "2 cells expect filled", "right or wrong: read each", "  test 1  first: [1, 2, 0]: 1 2 1\n")
        self.program.write_text(GREAT)
        status, out, _ = self.check("--no-page")
        self.assertEqual(status, statuses.UNEXPECTED)
        has(self, out, "NOT AS EXPECTED: 2 tests.", "test 1  first: [1, 2, 0]: RETURNED 1 2 2, expected 1 2 1")
        self.assertEqual(self.approve()[0], statuses.UNEXPECTED)
        self.assertEqual((self.approve("--renew")[0], self.check("--no-page")[0]), (0, 0))

    def test_another_file_and_tables_that_have_no_columns(self) -> None:
        other = self.folder / "other.csv"
        before = self.tests.read_text()
        self.assertEqual(self.approve("--table", other)[0], 0)
        self.assertEqual((self.tests.read_text(), "expect" in other.read_text()), (before, True))
        self.tests = self.put("tests.json", "[[1, 2, 0]]")
        refuses(self, self.approve(), "a table in JSON has no column expect")


if __name__ == "__main__":
    unittest.main()
