"""Marks under the lines of a source: under characters of a statement, a name, a label."""

import re
from collections.abc import Iterable
from typing import NamedTuple

from mutants.texts.cards import Card, action_at


class Mark(NamedTuple):
    """Columns of a line, from 1, the last one counted."""

    line: int
    first: int
    last: int


# Marks, and notes on them.
Marked = tuple[list[Mark], list[str]]

KEYWORDS = "SUBROUTINE INTEGER LOGICAL DIMENSION DATA".split()


def span(card: Card, begin: int, end: int) -> list[Mark]:
    """The marks under characters of a statement: one for each line that has some."""
    columns: dict[int, list[int]] = {}
    for line, column in card.places[begin:end]:
        columns.setdefault(line, []).append(column)
    return [Mark(line, min(places), max(places)) for line, places in columns.items()]


def whole(card: Card) -> list[Mark]:
    return span(card, 0, len(card.text)) or [Mark(card.line, 7, 7)]


def without_operators(text: str) -> str:
    """The text with blanks in the places of .EQ. and the like, so that these do not look like names."""
    return re.sub(r"\.[A-Z]+\.", lambda operator: " " * len(operator[0]), text)


def find_name(text: str, name: str) -> int | None:
    """Where a name stands in the text of a statement; None where it does not."""
    text = without_operators(text)
    for match in re.finditer(re.escape(name), text):
        before, behind = text[: match.start()], text[match.end() : match.end() + 1]
        is_first = not before[-1:].isalnum() or before in KEYWORDS or re.fullmatch(r"(.*\W)?DO\d+", before)
        if is_first and not behind.isalnum():
            return match.start()
    return None


def value_of(digits: str) -> int:
    """The number that digits write; for many digits some large number."""
    return int(digits.lstrip("0")[:12] or "0")


def labels_in(text: str) -> list[tuple[int, int, int]]:
    """The labels that a statement names: of each its value, and where it begins and ends."""
    at = action_at(text)
    for form in (r"GOTO(\d+)", r"GOTO\(([\d,]+)\)", r"([\d,]+)", r"DO(\d+)"):
        match = re.compile(form).match(text, at)
        if match:
            numbers = re.compile(r"\d+").finditer(text, match.start(1), match.end(1))
            return [(value_of(number[0]), number.start(), number.end()) for number in numbers]
    return []


def label_value(card: Card) -> int | None:
    return int(card.label) if card.label.isdecimal() else None


def label_marks(cards: Iterable[Card], value: int) -> list[Mark]:
    return [Mark(card.line, 1, 5) for card in cards if label_value(card) == value]
