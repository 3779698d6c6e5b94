"""The sweep of searches for tests: its table, and what has to be met."""

import unittest
from unittest import mock

from proved import MOTHRA, mutants
from room import Room
from developing import suggestions
from developing.suggestions import Case
from mutants import statuses
from running import Ended, has, run


class Sweep(Room):
    def sweep(self, tests: int) -> Ended:
        """What comes of the sweep of one program, whose search begins with the first of its two tests."""
        case = {"least": Case(self.program, self.tests, 1, 3, tests=tests)}
        with mock.patch.object(suggestions, "CASES", case), mock.patch.object(suggestions, "called", self.called):
            return run("suggestions", "--seed", "1", MOTHRA)

    def called(self, *words: object) -> None:
        self.assertEqual(mutants(str(words[0]), *words[1:])[0], statuses.SUCCESS)

    def test_a_search_is_held_against_what_it_has_to_find(self) -> None:
        status, out, errors = self.sweep(9)
        self.assertEqual((status, errors), (statuses.SUCCESS, ""))
        self.assertRegex(out.splitlines()[2], r"^\| least \| 16 \| 8 \| 15 \| \*\*15\*\* \| \d \| \d+\.\d \| 1 \|$")
        status, out, _ = self.sweep(1)
        self.assertEqual(status, statuses.FAULT)
        has(self, out, "NOT MET: least, seed 1: 0 mutants are not killed, with ")


if __name__ == "__main__":
    unittest.main()
