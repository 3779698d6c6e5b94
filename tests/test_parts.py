"""The smaller parts: the difference of two statements, the smallest set of tests, the statements of a source."""

import itertools
import random
import re
import unittest
from collections.abc import Iterable

import running
from mutants.operators import NAMES
from mutants.pages.cover import smallest_set
from mutants.texts.cards import cards_of, last_lines
from mutants.texts.differences import pieces
from mutants.texts.reports import read_report

LANGUAGE = (running.ROOT / "docs" / "LANGUAGE.md").read_text()


class Differences(unittest.TestCase):
    def test_marks_the_changed_words(self) -> None:
        for old, new, wanted in (
            ("IF (I.EQ.J) RETURN", "IF (I.GE.J) RETURN", "IF (I[-.EQ.-][+.GE.+]J) RETURN"),
            ("K=I-J", "K=IABS(I)-J", "K=[+IABS(+]I[+)+]-J"),
            ("K=I-J", "K=J", "K=[-I--]J"),
            ("K=I", "CONTINUE", "[-K=I-][+CONTINUE+]"),
            ("IF (P) K=1", "IF (P) K=12", "IF (P) K=[-1-][+12+]"),
            ("GO TO 10", "GO TO 10", "GO TO 10"),
            ("P=A.OR.B.OR.C", "P=(A.NEQV.B).OR.C", "P=[+(+]A[-.OR.-][+.NEQV.+]B[+)+].OR.C"),
        ):
            marks = {"=": "{}", "-": "[-{}-]", "+": "[+{}+]"}
            with self.subTest(new):
                self.assertEqual("".join(marks[mark].format(text) for mark, text in pieces(old, new)), wanted)

    def test_the_pieces_are_the_two_texts(self) -> None:
        for name in running.EXAMPLES:
            survivors = read_report(running.example(name, ".report").read_text()).survivors
            for one, other in itertools.pairwise(survivors):
                found = pieces(one.text, other.text)
                self.assertEqual("".join(text for mark, text in found if mark != "+"), one.text)
                self.assertEqual("".join(text for mark, text in found if mark != "-"), other.text)


def is_cover(rows: Iterable[int], tests: Iterable[int]) -> bool:
    mask = sum(1 << test for test in tests)
    return all(row & mask for row in rows if row)


class SmallestSets(unittest.TestCase):
    def test_no_smaller_set_is_there(self) -> None:
        random.seed(1978)
        for _ in range(150):
            count = random.randint(1, 7)
            rows = [random.getrandbits(count) & random.getrandbits(count) for _ in range(random.randint(0, 12))]
            found, is_least = smallest_set(rows)
            self.assertTrue(is_least and is_cover(rows, found))
            smaller = itertools.combinations(range(count), max(len(found) - 1, 0))
            self.assertFalse(found and any(is_cover(rows, tests) for tests in smaller), rows)

    def test_the_greedy_set_is_told_where_the_search_is_given_up(self) -> None:
        random.seed(1962)
        rows = [random.getrandbits(40) & random.getrandbits(40) & random.getrandbits(40) for _ in range(150)]
        found, is_least = smallest_set(rows, branches=3)
        self.assertFalse(is_least)
        self.assertTrue(is_cover(rows, found))

    def test_the_examples(self) -> None:
        for name, wanted in (("sort", [0, 4, 7, 8, 9]), ("euclid", [0, 5, 6]), ("closure", [2, 3])):
            report = read_report(running.example(name, ".report").read_text())
            rows = [int(row.bits[::-1], 2) for row in report.rows]
            found, is_least = smallest_set(rows)
            self.assertEqual(len(found), len(wanted))
            self.assertTrue(is_least and is_cover(rows, found) and is_cover(rows, wanted))


class Cards(unittest.TestCase):
    def test_a_character_of_a_statement_has_its_place(self) -> None:
        card = cards_of("c x\n   10 k = i\n     &  +j" + " " * 62 + "x\n")[0]
        self.assertEqual(card[:3], (2, "10", "K=I+J"))
        self.assertEqual(card.places, ((2, 7), (2, 9), (2, 11), (3, 9), (3, 10)))

    def test_the_last_line_of_a_statement(self) -> None:
        for source, wanted in (
            ("      K=I\nC\n     &+J\n     &\n\n      END\n", {1: 4, 6: 6}),
            ("     &+J\nc\n      K=I\n     0K=J\r\n     1+1\r\n", {3: 3, 4: 5}),
            ("", {}),
        ):
            with self.subTest(source):
                self.assertEqual(last_lines(source), wanted)


class Names(unittest.TestCase):
    def test_the_operators_are_those_of_the_page(self) -> None:
        rows = re.findall(r"^\| ([A-Z]{3}) \| ([^|]+) \| ([^|]+) \| ([^|]+) \| ([^|]+) \|$", LANGUAGE, re.M)
        self.assertEqual(NAMES, {row[0]: row[1] for row in rows})
        self.assertEqual(len(NAMES), 22)


if __name__ == "__main__":
    unittest.main()
