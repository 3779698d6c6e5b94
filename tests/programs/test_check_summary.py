"""What a check tells without a word: the score, what changed, the lines with most survivors; a baseline."""

import os
import unittest
from unittest import mock

from mutants import caches, statuses
from mutants.comparisons import since
from proved import mutants
from room import TWO, Room
from running import has, refuses

SHORT = """\
LEAST of {program}: 1 test
Score 50.00 %: 8 of 16 mutants killed, of those that were asked for.
Where each mutant is left out that is killed whenever another is, it is 11.11 %: 1 of 9 mutants killed.
Left out: the mutants of all operators but ROR, RSR, SAN and SDL.

8 survivors on 1 line:
line 4: IF (J.LT.I) K=J (8 of 13 survive)
  ROR 1     IF (J[.LT. -> .LE.]I) K=J
  ROR 2     IF (J[.LT. -> .EQ.]I) K=J
  and 6 more, of ROR, RSR, SAN and SDL

Which mutants can be proved equivalent was not asked: --no-proofs was given.
"""


class Short(Room):
    def short(self, *words: object) -> tuple[int, str, str]:
        return mutants("check", "--no-page", *words, self.program, self.tests)

    def test_the_lines_with_most_survivors_come_first_and_three_of_each(self) -> None:
        self.put("tests.csv", "1,2,0\n")
        self.assertEqual(self.short(), (0, SHORT.format(program=self.program), ""))
        self.put("tests.csv", "")
        for words, told in (
            ([], "16 survivors on 2 lines:\nline 4:"),
            (["--top", "1"], "2 lines. The 1 line with most (--top N tells more, --all all):\nline 4:"),
        ):
            out = self.short(*words)[1]
            has(self, out, told)
            self.assertEqual("line 3:" in out, not words)

    def test_tests_are_told_where_something_is_wrong_with_one(self) -> None:
        self.put("tests.csv", "I,J,K,expect\n1,2,0,K=1\n2,1,0,K=2\n")
        out = self.short()[1]
        has(self, out, "NOT AS EXPECTED: 1 test.", "  test 2  [2, 1, 0]: RETURNED 2 1 1, expected K=2\nScore")
        self.assertNotIn("[1, 2, 0]", out)

    def test_what_changed_since_the_last_check_that_was_asked_the_same(self) -> None:
        for tests, words, told in (
            (TWO, [], ""),
            (TWO, [], ""),
            ("1,2,0\n", [], "(93.75 %): 7 mutants newly surviving, 1 test gone.\nNEWLY SURVIVING: "),
            (TWO, ["--ops", "ROR"], ""),
            (TWO, [], "Since the last check (50.00 %): 7 mutants newly killed, 1 test new.\n"),
        ):
            self.put("tests.csv", tests)
            status, out, _ = self.short(*words)
            self.assertEqual((status, "Since" in out), (0, bool(told)))
            self.assertIn(told, out)

    def test_a_state_that_is_damaged_or_cannot_be_kept_is_as_none(self) -> None:
        kept = caches.caches_folder("checks")
        assert kept
        for path in kept.iterdir() if kept.is_dir() else ():
            path.unlink()
        self.short()
        (path,) = kept.iterdir()
        for data in (b"", b"x" * 50, path.read_bytes()[:-9]):
            path.write_bytes(data)
            self.put("tests.csv", "1,2,0\n")
            self.assertEqual("Since" in self.short()[1], False)
        with mock.patch.dict(os.environ, {"XDG_CACHE_HOME": str(self.program)}):
            self.assertEqual(self.short()[0], 0)
        with mock.patch.object(since, "KEPT", 1), mock.patch("mutants.subcommands.check.KEPT", 1):
            self.short("--ops", "SDL")
        self.assertEqual(len(list(kept.iterdir())), 1)

    def test_a_baseline_has_a_status_where_what_was_killed_survives(self) -> None:
        old = self.folder / "old.json"
        self.short("--json", old)
        for tests, status, told in (
            (TWO, 0, f"Since {old} (93.75 %): nothing has changed."),
            ("1,2,0\n", statuses.NEWLY_SURVIVING, "NEWLY SURVIVING: "),
        ):
            self.put("tests.csv", tests)
            ended = self.short("--baseline", old)
            self.assertEqual((ended[0], told in ended[1]), (status, True), ended)
        refuses(self, self.short("--baseline", self.program), "neither a report of mothra run nor a file of")
        refuses(self, self.short("--baseline", old, "--json", old), "reads it")


if __name__ == "__main__":
    unittest.main()
