"""The unit of a source and its dummy arguments, as its declarations have them."""

import math
import re
from collections.abc import Iterable

from mutants.texts.cards import cards_of

# The type of a dummy argument, and its number of elements, None for a variable.
Dummy = tuple[str, int | None]


def zero_of(dummy: Dummy) -> bool | int | list[int]:
    """The value 0 or .FALSE., or an array of it."""
    kind, elements = dummy
    zero = False if kind == "logical" else 0
    return zero if elements is None else [zero] * elements


def read_head(text: str) -> tuple[str, list[str]]:
    """The unit's name and those of its dummy arguments."""
    head = re.fullmatch(r"SUBROUTINE([A-Z0-9]+)(?:\(([A-Z0-9,]*)\))?", text)
    if not head:
        raise ValueError("the source does not begin with SUBROUTINE")
    return head[1], head[2].split(",") if head[2] else []


def read_items(texts: Iterable[str]) -> list[tuple[str, str, str]]:
    """Keyword, name and bounds of each item that is declared."""
    # These keywords have more letters than a name may have, so no other statement begins with one.
    declarations = [re.fullmatch("(INTEGER|LOGICAL|DIMENSION)(.*)", text) for text in texts]
    return [
        (declaration[1], name, bounds)
        for declaration in declarations
        if declaration
        for name, bounds in re.findall(r"([A-Z][A-Z0-9]*)(?:\(([0-9,]+)\))?", declaration[2])
    ]


def read_unit(source: str) -> tuple[str, list[Dummy]]:
    """The unit's name, and of each dummy argument its type and its number of elements, None for a variable."""
    texts = [card.text for card in cards_of(source)] or [""]
    unit, dummies = read_head(texts[0])
    items = read_items(texts[1:])
    logical = {name for keyword, name, _ in items if keyword == "LOGICAL"}
    elements = {name: math.prod(map(int, bounds.split(","))) for _, name, bounds in items if bounds}
    return unit, [("logical" if name in logical else "integer", elements.get(name)) for name in dummies]
