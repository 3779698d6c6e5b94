"""What a mutant changes: the piece of its statement that is replaced, and where that piece stands in the source."""

from collections.abc import Sequence
from difflib import SequenceMatcher
from typing import NamedTuple

from mutants.texts.cards import Card, Place
from mutants.texts.differences import WORD, common_front
from mutants.texts.parentheses import depths


class Change(NamedTuple):
    """A statement is `front`, `old` and `back`, and that of the mutant `front`, `new` and `back`."""

    front: str
    old: str
    new: str
    back: str


class Span(NamedTuple):
    """The place of the first character of a piece of the source, and the place after its last one."""

    start: Place
    end: Place


def operand_before(words: Sequence[str]) -> int:
    """How many words at the end of these are an operand: a name, a number, or what is in parentheses and its name."""
    backwards = words[::-1]
    for count, (word, depth) in enumerate(zip(backwards, depths(backwards))):
        # Read backwards, a closing parenthesis comes first, so the count of open ones is below 0.
        if depth > 0 or depth == 0 and not (word.isalnum() or word == "("):
            return count
        if depth == 0 and word.isalnum():
            return count + 1
    return len(words)


def widened(olds: Sequence[str], front: int, back: int) -> tuple[int, int]:
    """The piece, with the operand before it, or else the word after it, where the piece has no word of its own."""
    if "".join(olds[front : len(olds) - back]).strip():
        return front, back
    before = operand_before(olds[:front])
    return (front - before, back) if before or not back else (front, back - 1)


def depths_of(words: Sequence[str]) -> tuple[int, int]:
    """How many parentheses words leave open, and how many they close that they have not opened."""
    behind = [0, *depths(words)]
    closed = -min(behind)
    return behind[-1] + closed, closed


def balanced(olds: Sequence[str], front: int, back: int) -> tuple[int, int]:
    """The piece, with as many more words as needed so that each of its parentheses has its partner in it."""
    while True:
        opened, closed = depths_of(olds[front : len(olds) - back])
        if opened and back:
            back -= 1
        elif closed and front:
            front -= 1
        else:
            return front, back


def change_of(old: str, new: str) -> Change:
    """The change from a statement to that of a mutant, in whole words. The replaced piece has at least one word."""
    olds, news = WORD.findall(old), WORD.findall(new)
    front = common_front(olds, news)
    back = common_front(olds[front:][::-1], news[front:][::-1])
    front, back = balanced(olds, *widened(olds, front, back))
    parts = olds[:front], olds[front : len(olds) - back], news[front : len(news) - back], olds[len(olds) - back :]
    return Change(*map("".join, parts))


def squeezed(text: str) -> str:
    return text.replace(" ", "")


def aligned(printed: str, text: str) -> dict[int, int]:
    """For each character of the printed text, without blanks, its place in the text of the card, if it has one."""
    if printed == text:
        return {place: place for place in range(len(text))}
    blocks = SequenceMatcher(None, printed, text, autojunk=False).get_matching_blocks()
    return {block.a + step: block.b + step for block in blocks for step in range(block.size)}


def is_apart(text: str, first: int, last: int, kept: frozenset[int]) -> bool:
    """Whether a piece of a card is written as it is printed, and not at an end of parentheses that are not printed."""
    inside = all(place in kept for place in range(first, last))
    opens = text[first - 1 : first] == "(" and first - 1 not in kept
    closes = text[last : last + 1] == ")" and last not in kept
    return inside and not opens and not closes


class Places:
    """Where the pieces of a printed statement stand in the source."""

    def __init__(self, card: Card, printed: str) -> None:
        self.card, self.printed = card, squeezed(printed)
        self.at = aligned(self.printed, card.text)
        self.kept = frozenset(self.at.values())

    def whole(self) -> Span:
        return self.between(0, len(self.card.text))

    def between(self, first: int, last: int) -> Span:
        line, column = self.card.places[last - 1]
        return Span(self.card.places[first], (line, column + 1))

    def of(self, change: Change) -> Span | None:
        """Where the old piece stands; None where it is not written as it is printed."""
        first = len(squeezed(change.front))
        last = first + len(squeezed(change.old))
        ends = self.at.get(first), self.at.get(last - 1)
        if ends[0] is None or ends[1] is None:
            return None
        begin, end = ends[0], ends[1] + 1
        is_same = self.card.text[begin:end] == squeezed(change.old)
        return self.between(begin, end) if is_same and is_apart(self.card.text, begin, end, self.kept) else None


def placed(places: Places, old: str, new: str) -> tuple[Span, str]:
    """Where a mutant changes the source, and what stands there then: the piece, or else the whole statement."""
    change = change_of(old, new)
    span = places.of(change)
    return (span, change.new) if span else (places.whole(), new)
