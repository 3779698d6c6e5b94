"""The program units of a file, and the one that is picked: its lines keep the numbers that they have in the file."""

import re
from collections.abc import Sequence
from typing import NamedTuple

from mutants.texts.cards import Card, cards_of

KIND = r"(?:(?:INTEGER|LOGICAL|REAL|DOUBLEPRECISION|COMPLEX|CHARACTER)(?:\*\d+)?)?FUNCTION"
HEAD = re.compile(rf"(SUBROUTINE|{KIND}|PROGRAM|BLOCKDATA)([A-Z][A-Z0-9]*)?(?:\(.*)?")


class Unit(NamedTuple):
    """A program unit: its kind ("" where no statement says it), its name ("" where it has none), its first and last
    line."""

    kind: str
    name: str
    first: int
    last: int

    def text(self) -> str:
        which = f"{self.kind} {self.name}".strip() or "a unit without a name"
        return f"{which} (lines {self.first} to {self.last})"


def unit_of(cards: Sequence[Card], first: int) -> Unit:
    """The unit of these statements. Comments before the first of them, from line `first` on, are part of it."""
    head = HEAD.fullmatch(cards[0].text)
    if not head or "=" in cards[0].text.partition("(")[0]:
        return Unit("", "", first, cards[-1].line)
    kind = "FUNCTION" if head[1].endswith("FUNCTION") else "BLOCK DATA" if head[1] == "BLOCKDATA" else head[1]
    return Unit(kind, head[2] or "", first, cards[-1].line)


def units_of(source: str) -> list[Unit]:
    """The units of a file. What stands after the last END is part of the last unit."""
    units: list[Unit] = []
    cards: list[Card] = []
    first = 1
    for card in cards_of(source):
        cards.append(card)
        if card.text == "END":
            units.append(unit_of(cards, first))
            cards, first = [], card.line + 1
    if cards and units:
        units[-1] = units[-1]._replace(last=cards[-1].line)
    return units or ([unit_of(cards, first)] if cards else [])


def picked(units: Sequence[Unit], name: str | None) -> Unit:
    """The unit of a name; without one the only subroutine of the file."""
    units_text = "; ".join(unit.text() for unit in units)
    if name is not None:
        named = [unit for unit in units if unit.name == name.upper()]
        if len(named) != 1:
            count = "several units have" if named else "no unit has"
            raise ValueError(f"{count} the name {name.upper()}: {units_text}")
        return named[0]
    subroutines = [unit for unit in units if unit.kind == "SUBROUTINE"]
    if len(subroutines) != 1:
        raise ValueError(f"the file has {len(units)} units, and --unit NAME says which is meant: {units_text}")
    return subroutines[0]


def with_lines(source: str, unit: Unit) -> str:
    """The source with blank lines in the place of those outside of the unit."""
    lines = source.split("\n")
    # Comments after the last unit belong to no unit, and do no harm: a unit ends with its END.
    return "\n".join([*[""] * (unit.first - 1), *lines[unit.first - 1 : unit.last], ""])
