"""What the program does on each test, kept: which tests are asked again, and which are not."""

import os
import unittest
from unittest import mock

import proved  # noqa: F401  it finds the package
from room import TWO, Room
from mutants.checks import outcomes
from running import Ended, has, holds, refuses


class Kept(Room):
    def setUp(self) -> None:
        super().setUp()
        holds(self, mock.patch.dict(os.environ, {"XDG_CACHE_HOME": str(self.folder / "caches")}))

    def asked(self, tests: str, *words: object) -> tuple[list[int], Ended]:
        """The places of the tests that the program is asked for, and what the check says."""
        self.put("tests.csv", tests)
        with mock.patch.object(outcomes, "ask_outcomes", wraps=outcomes.ask_outcomes) as ask:
            ended = self.check("--no-page", *words)
        return list(ask.call_args.args[1]), ended

    def test_each_test_is_asked_once_and_with_anew_again(self) -> None:
        more = f"9,8,0\n{TWO}2,1,0\n"
        for tests, words, places in (
            (TWO, [], [0, 1]), (TWO, [], []), (more, [], [0]), (TWO, ["--steps", "99"], [0, 1]), (TWO, [], []),
            (more, ["--anew"], [0, 1, 2]),
        ):  # fmt: skip
            asked, (_, out, _) = self.asked(tests, *words)
            self.assertEqual(asked, places, words)
            has(self, out, "[1, 2, 0]  RETURNED 1 2 1", "[2, 1, 0]  RETURNED 2 1 1")
        has(self, out, "  1  [9, 8, 0]  RETURNED 9 8 8", "  4  [2, 1, 0]  RETURNED 2 1 1")
        self.program.write_text(self.program.read_text() + "C     ANOTHER PROGRAM\n")
        self.assertEqual(self.asked(TWO)[0], [0, 1])

    def test_a_test_that_is_refused_has_its_own_number_and_is_asked_again(self) -> None:
        self.asked(TWO)
        for _ in range(2):
            asked, ended = self.asked(f"{TWO}T,2,0\n")
            self.assertEqual(asked, [2])
            refuses(self, ended, "tests.csv: test 3: ")

    def test_so_many_tests_of_a_source_are_kept_as_were_asked_last(self) -> None:
        with mock.patch.object(outcomes, "MOST_TESTS", 2):
            self.asked(f"{TWO}3,3,0\n")
        self.assertEqual(self.asked(f"{TWO}3,3,0\n")[0], [0])


if __name__ == "__main__":
    unittest.main()
