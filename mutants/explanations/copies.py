"""A copy of a source, from which faults are taken out so that all else stays what it is.

A statement that the program refuses is left out. Where others depend on it, another one takes its place: a CONTINUE
with its label, a block IF with another condition, numbers for bounds that are none. A name that is REAL is declared
INTEGER after the SUBROUTINE statement. Lines keep their numbers, but for those after such declarations.
"""

import re
from collections.abc import Sequence

from mutants.explanations.forms import condition_of, line_habits
from mutants.explanations.meanings import MEANINGS
from mutants.explanations.names import called_names, declared_arrays
from mutants.explanations.seeing import habits_seen
from mutants.explanations.softening import as_head, declared_twice, shortened, softened, without_item
from mutants.jobs.sizes import lay, lines_of_card
from mutants.texts.cards import Card, cards_of
from mutants.texts.tabs import without_tabs

# Faults that can not be taken out.
LAST = ("F1", "F2", "S1", "C1", "C14")
DECLARES = re.compile(r"(INTEGER|LOGICAL|REAL|DOUBLEPRECISION|COMPLEX|CHARACTER|DIMENSION|COMMON).*\(")


class Copy:
    def __init__(self, source: str) -> None:
        self.source, self.lines = source, source.split("\n")
        # After this line, from 1, come declarations that the source does not have.
        self.head, self.added = 0, 0
        # The lines of statements that were made statements of the subset already.
        self.softened: set[int] = set()
        # Whether a declaration is gone, so that faults of names may come of that; and whether a part of a block is
        # gone.
        self.has_gap = self.has_open_block = False

    def text(self) -> str:
        return "\n".join(self.lines)

    def cards(self) -> list[Card]:
        return cards_of(self.text())

    def own_line(self, line: int) -> int:
        """The number in the source of a line of the copy."""
        return line - self.added if self.added and line > self.head else line

    def put(self, card: Card, text: str) -> None:
        """Puts another statement in the place of one, on as many of its lines as it needs. An empty text leaves it
        out."""
        if not card.label.isdecimal():
            self.lines[card.line - 1] = " " * 6
        lay(self.lines, card.line, text)

    def soften(self, card: Card) -> bool:
        """Whether a statement could be made one of the subset."""
        text = softened(card.text)
        if text == card.text or card.line in self.softened:
            return False
        self.softened.add(card.line)
        self.put(card, text)
        return True

    def shorten(self, card: Card) -> bool:
        """Whether names that are too long could be cut."""
        text = shortened(card.text)
        self.put(card, text)
        return text != card.text

    def take_out(self, card: Card, code: str) -> None:
        """Takes a statement out, such that those around it stay what they are."""
        if code == "S3" and self.shorten(card) or code in ("S2", "S3") and self.soften(card):
            return
        condition, is_else = condition_of(card.text), card.text.startswith("ELSE")
        is_block = re.fullmatch(r"(ELSE)?IF.*THEN", card.text) or condition and not condition[1]
        self.has_gap = self.has_gap or bool(DECLARES.match(card.text))
        if is_block and code != "C11":
            self.put(card, "ELSE IF (.TRUE.) THEN" if is_else else "IF (.TRUE.) THEN")
        else:
            self.put(card, "CONTINUE" if card.label.isdecimal() else "")

    def mend_line(self, code: str, line: int) -> None:
        """Mends a line that is no line of a program."""
        text = self.lines[line - 1]
        habits = [seen.habit for seen in line_habits(text)]
        if code == "F4":
            self.lines[line - 1] = without_tabs(text)
        elif code == "F3":
            self.lines[line - 1] = "".join(c if " " <= c <= "~" else "X" for c in text)
        elif code == "F5" and habits == ["free form"]:
            self.lines[line - 1] = " " * 6 + text.strip()
        elif code == "F5" and habits in ([], ["debugging line"]):
            self.lines[line - 1] = " " * 5 + text[5:]
        else:
            self.lines[line - 1] = ""

    def declare(self, name: str, cards: Sequence[Card]) -> None:
        """Declares a name INTEGER. Where it is called, the first such statement is left out, so that it is reported
        once."""
        arrays = declared_arrays(card.text for card in cards)
        for card in [card for card in cards if name in dict(called_names(card.text, arrays))][:1]:
            self.take_out(card, "C2")
        self.head = lines_of_card(self.lines, cards[0].line)[-1] + 1 if not self.added else self.head
        self.lines.insert(self.head, f"      INTEGER {name}")
        self.added += 1

    def begin(self, head: Card) -> bool:
        """Makes another unit a subroutine. The result says whether that is possible."""
        text = as_head(head.text)
        if text:
            self.put(head, text)
        self.has_gap = self.has_gap or not head.text.startswith("SUBROUTINE")
        return text is not None and text != head.text

    def declare_once(self, name: str, cards: Sequence[Card]) -> bool:
        """Takes a name out of the last declaration that has it. The result says whether it was declared twice."""
        place = declared_twice(name, [card.text for card in cards])
        if place is not None:
            self.put(cards[place], without_item(cards[place].text, name))
        return place is not None

    def label_once(self, label: str, cards: Sequence[Card]) -> bool:
        """Takes a label from all statements but the first. The result says whether it stood on several."""
        alike = [card for card in cards if card.label.lstrip("0") == label]
        for other in alike[1:]:
            self.lines[other.line - 1] = " " * 5 + self.lines[other.line - 1][5:]
        return len(alike) > 1

    def mended(self, code: str, detail: str) -> bool:
        """Whether a fault could be taken out."""
        cards = self.cards()
        if code in LAST:
            return False
        if code == "S7" or code == "S2" and cards and detail == str(cards[0].line):
            return bool(cards) and self.begin(cards[0])
        if code == "S8":
            self.lines.append("      END")
        elif code == "C2":
            self.declare(detail, cards)
        elif code == "C3":
            return self.declare_once(detail, cards)
        elif code == "C6":
            return self.label_once(detail, cards)
        else:
            return MEANINGS[code].detail == "line" and self.mended_at(code, int(detail), cards)
        return True

    def mended_at(self, code: str, line: int, cards: Sequence[Card]) -> bool:
        """Whether the fault of a line could be taken out."""
        card = next((card for card in cards if card.line == line), None)
        if code.startswith("F"):
            self.mend_line(code, line)
        elif code == "S9":
            self.lines[line - 1 :] = [""]
        elif card:
            self.take_out(card, code)
            is_end = code == "C11" and not habits_seen(code, str(self.own_line(line)), self.source)
            self.has_open_block = self.has_open_block or is_end
        return code[0] == "F" or code == "S9" or card is not None

    def is_of_open_block(self, line: int) -> bool:
        """Whether a fault of a block may come of another part that is gone. The END IF of a logical IF is of no
        block."""
        return self.has_open_block and not habits_seen("C11", str(self.own_line(line)), self.source)
