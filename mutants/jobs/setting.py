"""Which dummy arguments are only set: no run reads the value that they had before the call.

This is found in the texts of the statements, so it is recognised for fewer arguments than it is true of. An argument is
only set where it is never read, or where on every way through the program a statement sets it before one reads it.
"""

import re
from collections.abc import Iterable, Sequence

from mutants.jobs.sizes import DECLARATION
from mutants.texts.parentheses import closing
from mutants.texts.cards import Card, cards_of
from mutants.texts.dummies import read_unit, zero_of

DO = re.compile(r"DO(\d+),?([A-Z][A-Z0-9]*)=")
TARGET = re.compile(r"([A-Z][A-Z0-9]*)([(=])")


def target_of(text: str) -> tuple[str, str]:
    """The name that a statement gives a value, and the text of what it reads."""
    if text.startswith(("IF(", "ELSEIF(")):
        end = closing(text, text.index("("))
        name, rest = target_of(text[end + 1 :])
        return name, f"{text[: end + 1]},{rest}"
    loop, target = DO.match(text), TARGET.match(text)
    if loop:
        return loop[2], text[loop.end() :]
    if target and target[2] == "=":
        return target[1], text[target.end() :]
    if target:
        end = closing(text, target.end() - 1) + 1
        return (target[1], text[target.end() :]) if text[end : end + 1] == "=" else ("", text)
    return "", text


def has_name(text: str, name: str) -> bool:
    return re.search(rf"(?<![A-Z0-9]){name}(?![A-Z0-9])", text) is not None


class Way:
    """A way through the statements, one after the other: whether each run comes to this one, or ends before it."""

    def __init__(self) -> None:
        self.blocks, self.loops, self.has_jump = 0, list[str](), False

    def is_always(self) -> bool:
        return not self.blocks and not self.loops and not self.has_jump

    def take(self, card: Card) -> None:
        """Goes past a statement."""
        text, loop = card.text, DO.match(card.text)
        self.blocks += text.startswith("IF(") and text.endswith(")THEN")
        self.blocks -= text == "ENDIF"
        self.loops = [label for label in self.loops if label != card.label.strip().lstrip("0")]
        self.loops += [loop[1].lstrip("0")] if loop else []
        self.has_jump |= "GOTO" in text or re.search(r"\)\d+,\d+,\d+$", text) is not None


def is_only_set(cards: Iterable[Card], name: str) -> bool:
    """Whether no run reads the value that an argument had before the call, as far as this is recognised."""
    way = Way()
    for card in cards:
        target, read = target_of(card.text)
        if has_name(read, name):
            return False
        if way.is_always() and target == name and card.text.startswith(f"{name}="):
            return True
        way.take(card)
    return True


def only_set(source: str, names: Sequence[str]) -> list[str]:
    """Those of the dummy arguments of a source that are only set."""
    cards = [card for card in cards_of(source)[1:] if not DECLARATION.match(card.text)]
    return [name for name in names if is_only_set(cards, name)]


def zeros_of(source: str, names: Sequence[str]) -> dict[str, object]:
    """The dummy arguments that are only set, each with 0 or .FALSE. for all that it has."""
    dummies = dict(zip(names, read_unit(source)[1]))
    return {name: zero_of(dummies[name]) for name in only_set(source, names)}
