"""All rows of a box: what is told of each survivor and stands on its pages, and what does not serve."""

import os
import unittest
from unittest import mock

from proved import mutants
from room import LEAST, TWO, Room
from mutants import statuses
from mutants.suggestions import box
from running import has, holds, refuses


class Within(Room):
    def setUp(self) -> None:
        super().setUp()
        # What a box says is kept for the test alone.
        holds(self, mock.patch.dict(os.environ, {"XDG_CACHE_HOME": str(self.folder / "caches")}))

    def within(self, *words: object) -> tuple[int, str, str]:
        return mutants("suggest", *words, self.program, self.put("tests.csv", "1,2,0\n"))

    def test_of_each_survivor_which_of_three_it_is(self) -> None:
        with mock.patch.object(box, "SIZE", 5):
            status, out, errors = self.within("--within", "I=-1:2", "--within", "J=0:2")
        self.assertEqual(status, statuses.SUCCESS)
        self.assertIn("12 rows of the box I from -1 to 2 and J from 0 to 2 are tried, in order\n", errors)
        has(self, out, "Tried: all 12 rows of the box I from -1 to 2 and J from 0 to 2.\n")
        has(self, out, "that the tests do not kill: 7 killed by a row, 0 proved equivalent, 1 that no row of this box")
        has(self, out, "one survivor on 1 line that no row of this box kills. That is more than a hint", "ROR 1 ")
        self.assertNotIn("no more than that", out)

    def test_a_box_that_kills_nothing(self) -> None:
        out = self.within("--within", "I=1:1,J=2:3")[1]
        has(self, out, "No row was found that kills a survivor.", "8 survivors on 1 line that no row of this box kills")

    def page(self, *words: object) -> tuple[str, str]:
        """What a check says, and its page."""
        return self.check(*words)[1], self.program.with_suffix(".html").read_text()

    def test_pages_name_the_box_until_the_program_changes(self) -> None:
        out = self.within("--within", "I=-1:2,J=0:2")[1]
        has(self, out, "Pages of later checks say this under each survivor, until the program changes.")
        none = "no row of this box kills it: I from -1 to 2 and J from 0 to 2</span>"
        for tests, killed in ((TWO, 0), ("1,2,0\n", 7)):
            self.put("tests.csv", tests)
            out, page = self.page()
            has(self, out, "Of the survivors 1 is killed by no row of a box that was searched. The page names the box.")
            has(self, page, f'<ins>.LE.</ins>I) K=J</code><span class="soft">{none}', "a row outside of the box may")
            self.assertEqual((page.count(none), page.count("a row that kills it: 1,0,0</span>")), (1, killed))
        status, page, _ = mutants("page", self.program, self.tests)
        self.assertEqual((status, page.count(none)), (0, 1))
        for ranges, largest in (("I=1:1,J=1:2", "I from -1 to 2"), ("I=0:9,J=0:9", "I from 0 to 9 and J from 0 to 9")):
            self.within("--within", ranges)
            has(self, self.page()[1], f"no row of this box kills it: {largest}", "a row that kills it: 1,0,0</span>")
        self.assertNotIn("of a box", "".join(self.page("--steps", "9999")))
        self.program.write_text(LEAST + "C     ANOTHER PROGRAM\n")
        self.assertNotIn("of a box", "".join(self.page()))

    def test_a_search_that_is_cut_says_nothing_of_the_box(self) -> None:
        with mock.patch.object(box.BoxSearch, "try_rows", side_effect=KeyboardInterrupt):
            status, out, _ = self.within("--within", "I=0:1,J=0:1")
        self.assertEqual(status, statuses.INTERRUPTED)
        has(self, out, "Tried: 0 of the 4 rows", "nothing is said of the others", "no row killed. No row was tried")

    def test_words_that_do_not_serve(self) -> None:
        refuses(self, self.within("--within", "I=0:1"), "--within says nothing of J")
        refuses(self, self.within("--within", "I=0:1,J=0:1", "--rounds", "3"), "--rounds says nothing then")
        self.assertEqual(self.within("--within", "I=1")[0], statuses.WORDS)


if __name__ == "__main__":
    unittest.main()
