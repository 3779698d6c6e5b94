"""Suggested tests where the program equivalents gives rows: more is decided than by chance alone."""

import re
import unittest
from pathlib import Path
from unittest import mock

import running
from proved import EQUIVALENTS, mutants
from room import Room
from mutants import statuses
from mutants.suggestions import choosing, rounds
from running import example, has

DECIDED = r"^Of the (\d+) mutants that the tests do not kill: (\d+) killed by a row, (\d+) proved .*, (\d+) und"
# A program of before there were rows: it refuses the option.
OLDER = """\
#!/bin/sh
case " $* " in *" --rows "*) exit 2;; esac
exec "{}" "$@"
"""


class Rows(Room):
    """The search for tests of a date, of which three are there: one round of few rows."""

    def setUp(self) -> None:
        super().setUp()
        table = example("date", ".csv").read_text().splitlines(keepends=True)
        self.tests = self.put("date.csv", "".join(table[:4]))
        for module in (rounds, choosing):
            running.holds(self, mock.patch.object(module, "SIZE", 16))

    def told(self, proofs: object) -> str:
        words = ["--rounds", "1", "--undeclared", example("date", ".f"), self.tests]
        status, out, errors = mutants("suggest", *words, proofs=proofs, ops="ROR")
        self.assertEqual((status, errors), (statuses.SUCCESS, ""))
        return out

    def decided(self, out: str) -> list[int]:
        """How many mutants the tests do not kill, how many are killed by a row, proved, and neither."""
        found = re.search(DECIDED, out, re.M)
        assert found
        return list(map(int, found.groups()))

    def older(self) -> Path:
        return self.put_program("older", OLDER.format(EQUIVALENTS))

    def test_rows_of_failed_proofs_decide_all_and_chance_does_not(self) -> None:
        without, out = self.told(self.older()), self.told(EQUIVALENTS)
        self.assertNotIn("Failed proofs", without)
        has(self, without, ", 1 round, seed 1.")
        has(self, out, "\nFailed proofs led to ")
        (every, *parts), (same, *others) = self.decided(out), self.decided(without)
        self.assertEqual((every, sum(parts), sum(others)), (same, every, every))
        self.assertEqual(parts[-1], 0)
        self.assertGreater(others[-1], 0)

    def test_the_same_call_gives_the_same_text(self) -> None:
        self.assertEqual(self.told(EQUIVALENTS), self.told(EQUIVALENTS))


if __name__ == "__main__":
    unittest.main()
