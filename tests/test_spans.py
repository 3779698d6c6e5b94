"""What a mutant changes, in whole words, and where that stands in the source."""

import unittest

import running
from mutants.texts.cards import Card, cards_of
from mutants.texts.reports import read_report
from mutants.texts.spans import Places, Span, change_of, placed, squeezed
from mutants.texts.tabs import without_tabs, written_column


def spliced(card: Card, span: Span, new: str) -> str:
    """The text of a card with another piece in the place of what the span has."""
    front = [character for character, place in zip(card.text, card.places) if place < span.start]
    back = [character for character, place in zip(card.text, card.places) if place >= span.end]
    return squeezed("".join(front) + new + "".join(back))


class Changes(unittest.TestCase):
    def test_a_change_has_a_word_at_least(self) -> None:
        for old, new, wanted in (
            (
                "IF (MIN0(I,J).LE.0) RETURN",
                "IF (MIN0(I,J)-1.LE.0) RETURN",
                "IF ([MIN0(I,J) -> MIN0(I,J)-1].LE.0) RETURN",
            ),
            ("IF (MIN0(I,J).LE.0) RETURN", "IF (MIN0(I-1,J).LE.0) RETURN", "IF (MIN0([I -> I-1],J).LE.0) RETURN"),
            ("K=I", "K=-I", "K=[I -> -I]"),
            ("K=I-J", "K=IABS(I)-J", "K=[I -> IABS(I)]-J"),
            ("K=I-J", "K=J", "K=[I- -> ]J"),
            ("IF (P) K=1", "IF (.NOT.P) K=1", "IF ([P -> .NOT.P]) K=1"),
            ("K=M(I)", "K=M(I)+1", "K=[M(I) -> M(I)+1]"),
            ("K=I", "CONTINUE", "[K=I -> CONTINUE]"),
            ("K=MOD(I,J)", "K=IABS(MOD(I,J))", "K=[MOD(I,J) -> IABS(MOD(I,J))]"),
            ("K=(I+J)*L", "K=I*L", "K=[(I+J) -> I]*L"),
            ("K=(I+J)*L", "K=(I-J)*L", "K=(I[+ -> -]J)*L"),
            ("P=(A.OR.B).AND.C", "P=A.OR.B.OR.C", "P=[(A.OR.B).AND. -> A.OR.B.OR.]C"),
            ("DO 10 I=1,3", "DO 20 I=1,3", "DO [10 -> 20] I=1,3"),
        ):
            with self.subTest(new):
                change = change_of(old, new)
                self.assertEqual(f"{change.front}[{change.old} -> {change.new}]{change.back}", wanted)
                self.assertEqual(change.front + change.new + change.back, new)


class Positions(unittest.TestCase):
    def test_what_is_put_there_makes_the_statement_of_the_mutant(self) -> None:
        seen = 0
        for name in ["triangle-weak", *running.EXAMPLES]:
            cards = {card.line: card for card in cards_of(running.example(name.split("-")[0], ".f").read_text())}
            for mutant in read_report(running.example(name, ".report").read_text()).survivors:
                card = cards[mutant.line]
                span, new = placed(Places(card, card.text), card.text, squeezed(mutant.text))
                self.assertEqual(spliced(card, span, new), squeezed(mutant.text), mutant)
                seen += span != Places(card, card.text).whole()
        self.assertGreater(seen, 500)

    def test_parentheses_that_are_not_printed(self) -> None:
        card = cards_of("      IF ((I.EQ.J) .AND. ((K+L)+M.GT.0)) K = (I)\n")[0]
        told = "IF (I.EQ.J.AND.K+L+M.GT.0) K=I"
        places = Places(card, told)
        for new, start, end, text in (
            ("IF (I.NE.J.AND.K+L+M.GT.0) K=I", 13, 17, ".NE."),
            ("IF (I.EQ.J.OR.K+L+M.GT.0) K=I", 20, 25, ".OR."),
            ("IF (I.EQ.J.AND.K+L+M.LT.0) K=I", 34, 38, ".LT."),
        ):
            span, put = placed(places, told, new)
            self.assertEqual((span, put), (Span((1, start), (1, end)), text))
        for new in ("IF (I.EQ.J.AND.(K+L)*M.GT.0) K=I", "IF (I.EQ.J.AND.K+L+M.GT.0) K=I+1"):
            self.assertEqual(placed(places, told, new), (Span((1, 7), (1, 49)), new))

    def test_leading_zeros_and_a_sign_of_data(self) -> None:
        card = cards_of("      DATA I,J/+01,2/\n")[0]
        span, new = placed(Places(card, "DATA I,J/1,2/"), "DATA I,J/1,2/", "DATA I,J/1,3/")
        self.assertEqual((span, new), (Span((1, 20), (1, 21)), "3"))


class Columns(unittest.TestCase):
    def test_each_character_has_its_own(self) -> None:
        for line in ("\tK=I", "10\tK=I", "\t1+J", "     \tK", "      K\t=\tI", "     &\t+J", "      K=I", "\t\tK =\tJ"):
            with self.subTest(line):
                plain = without_tabs(line)
                for column, character in enumerate(plain, 1):
                    if character != " ":
                        self.assertEqual(line[written_column(line, column) - 1], character)


if __name__ == "__main__":
    unittest.main()
