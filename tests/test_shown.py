"""What reaches a terminal and a page: colours, characters that are obeyed, and that a hostile source is read soon."""

import os
import sys
import time
import unittest
from unittest import mock

from running import has
from mutants import colours
from mutants.explanations import also
from mutants.pages.style import STYLE
from mutants.texts.cards import cards_of
from mutants.words import visible


class Characters(unittest.TestCase):
    def test_those_that_are_obeyed_are_shown_as_one_sign(self) -> None:
        self.assertEqual(visible("a\t\n\x1b[31m\r\udcff"), "a\t\n\ufffd[31m\ufffd\ufffd")

    def test_a_page_shows_where_a_deletion_ends(self) -> None:
        has(self, STYLE, "del + ins { margin-left:")


class Colours(unittest.TestCase):
    def test_they_are_for_terminals_alone_and_not_where_they_are_not_wanted(self) -> None:
        for is_terminal, environment, has_some in (
            (True, {}, True), (False, {}, False), (True, {"NO_COLOR": "1"}, False), (True, {"TERM": "dumb"}, False),
        ):  # fmt: skip
            with mock.patch.object(sys, "stdout") as out, mock.patch.dict(os.environ, {"TERM": "x", **environment}):
                out.isatty.return_value = is_terminal
                self.assertEqual(colours.painted("Score 1.00 %: x\n") != "Score 1.00 %: x\n", has_some)

    def test_what_is_wrong_the_score_and_each_change(self) -> None:
        told = "NOT AS EXPECTED: 1 test.\nScore 50.00 %: 1\n  ROR 1  I[.LT. -> .LE.]J\nline 4: x\n"
        found = colours.coloured(told)
        plain = found
        for code in (colours.RED, colours.GREEN, colours.BOLD, colours.END):
            plain = plain.replace(code, "")
        self.assertEqual((plain, found.count("\x1b")), (told, 9))
        has(self, found, "[\x1b[31m.LT.\x1b[0m -> \x1b[32m.LE.\x1b[0m]", "\x1b[1mScore 50.00 %\x1b[0m", "\nline 4: x\n")


class Hostile(unittest.TestCase):
    def test_a_source_full_of_faults_is_told_soon(self) -> None:
        source = "      SUBROUTINE A(I)\n" + "      FOO BAR\n" * 4_000 + "      END\n"

        def first(program: str, text: str) -> tuple[str, str] | None:
            return next((("S2", str(card.line)) for card in cards_of(text) if "FOO" in card.text), None)

        with mock.patch.object(also, "asked_fault", first):
            begun = time.process_time()
            told = also.other_faults_text("none", source, source)
        self.assertLess(time.process_time() - begun, 8)
        self.assertIn("What is wrong beyond these can be told when they are mended.", told)

    def test_a_long_statement_is_read_once(self) -> None:
        source = "      I=1\n" + "     ++1111111111111111111111111111\n" * 20_000
        begun = time.process_time()
        self.assertEqual(len(cards_of(source)[0].text), 3 + 29 * 20_000)
        self.assertLess(time.process_time() - begun, 8)


if __name__ == "__main__":
    unittest.main()
