"""What is expected of the program: a column of the table, or a file; a difference is told, with a status of its own."""

import json
import unittest

from room import Room
from mutants import statuses
from running import has, refuses, run

GOOD = "I,J,K,expect\n1,2,0,1 2 1\n2,1,0,K=1\n3,3,0,\n"
FIRST = "I,J,expect,K\n1,2,RETURNED 1 * 1,0\n"


class Expected(Room):
    def test_a_column_of_the_table(self) -> None:
        for table in (GOOD, FIRST, GOOD.replace("expect", " EXPECT ")):
            self.put("tests.csv", table)
            status, out, errors = self.check("--no-page")
            self.assertEqual((status, errors), (statuses.SUCCESS, ""))
            self.assertNotIn("EXPECTED", out)
            self.assertIn(f"As expected on {'1 test' if table == FIRST else '2 tests'}.\n", out)

    def test_a_job_is_made_of_a_table_with_the_column(self) -> None:
        job = run("job", self.program, self.put("tests.csv", FIRST))[1]
        self.assertEqual(json.loads(job)["suite"], [[1, 2, 0]])

    def test_a_difference_is_told_and_has_a_status_of_its_own(self) -> None:
        self.put("tests.csv", GOOD.replace("K=1", "K=2"))
        for least in ("0", "100"):
            status, out, _ = self.check("--fail-under", least)
            self.assertEqual(status, statuses.UNEXPECTED)
            has(
                self,
                out,
                "NOT AS EXPECTED: 1 test.",
                "  test 2  [2, 1, 0]: RETURNED 2 1 1, expected K=2",
                "Score 93.75 %",
            )
        page = (self.folder / "least.html").read_text()
        has(self, page, "<b>Test 2: the program does not do what is expected.</b>")
        has(self, page, '<code>RETURNED 2 1 1</code> <span class="live">expected K=2</span>')

    def test_a_file(self) -> None:
        for name, text in (
            ("e.txt", "1 2 1\nRETURNED 2 1 1\n"), ("e.json", '["", "K=1"]'), ("e.txt", "\n\n\n2 1 1\n"[2:]),
        ):  # fmt: skip
            ended = self.check("--no-page", "--expect", self.put(name, text))
            self.assertEqual(ended[0], statuses.SUCCESS, ended)
        self.assertEqual(
            self.check("--no-page", "--expect", self.put("e.txt", "1 2 1\n2 1 2\n"))[0], statuses.UNEXPECTED
        )
        self.put("tests.csv", GOOD.replace("K=1", "K=2").replace("3,3,0,\n", ""))
        self.assertEqual(self.check("--no-page", "--expect", self.put("e.txt", "1 2 1\n2 1 1\n"))[0], statuses.SUCCESS)

    def test_what_does_not_serve_is_one_line(self) -> None:
        for name, text, told in (
            ("e.txt", "1 2 1\n", "it has 1 outcomes for 2 tests"), ("e.json", "[1, 2]", "no list of texts"),
            ("e.json", "{", "e.json"), ("e.txt", "K=1\nL=2\n", "test 2: L is no dummy argument: these are I, J, K"),
        ):  # fmt: skip
            refuses(self, self.check("--expect", self.put(name, text)), name, told)
        self.put("tests.csv", "J,I,L,expect\n1,2,0,\n")
        refuses(self, self.check(), "row 1, column 3: L is no dummy argument; the dummy arguments are I, J and K")

    def test_columns_in_another_order(self) -> None:
        self.put("tests.csv", "expect,K,J,I\nK=1,0,2,1\n,0,1,2\n")
        self.assertEqual(self.check("--no-page")[0], statuses.SUCCESS)
        self.put("tests.csv", "expect,K,J,I\nK=2,0,2,1\n,0,1,2\n")
        self.assertEqual(self.check("--no-page")[0], statuses.UNEXPECTED)


if __name__ == "__main__":
    unittest.main()
