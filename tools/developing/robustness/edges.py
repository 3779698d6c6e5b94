"""Rows of arguments at the edges of their range, at constants of a program and beside them, and small ones."""

from collections.abc import Iterator, Sequence
from random import Random

from mutants.jobs.cells import GREATEST, LEAST
from mutants.suggestions.shapes import Row, Value
from mutants.suggestions.values import clamped
from mutants.texts.dummies import Dummy

ENDS = (LEAST, LEAST + 1, GREATEST, GREATEST - 1)
NEAR = (0, 1, -1)
# Small values are from -SMALL to SMALL.
SMALL = 8
# How often the values of a row are ends, edges near 0 and constants, or any; the others are small.
KINDS = ((0.0, 0.3, 0.0), (0.0, 0.9, 0.0), (0.15, 0.5, 0.0), (0.5, 0.5, 0.0), (0.1, 0.2, 0.5), (0.0, 0.0, 0.0))


def edges_of(constants: Sequence[int]) -> list[int]:
    """The constants of a program, their negatives, and the values beside these."""
    beside = {clamped(sign * each + by) for each in constants for sign in (1, -1) for by in (-1, 0, 1)}
    return sorted({*NEAR, *beside})


class Edges:
    """Makes values."""

    def __init__(self, constants: Sequence[int], chance: Random) -> None:
        self.edges, self.chance = edges_of(constants), chance

    def number(self, kind: Sequence[float]) -> int:
        ends, edges, anything = kind
        way = self.chance.random()
        if way < ends:
            return self.chance.choice(ENDS)
        if way < ends + edges:
            return self.chance.choice(self.edges)
        if way < ends + edges + anything:
            return self.chance.randint(LEAST, GREATEST)
        return self.chance.randint(-SMALL, SMALL)

    def item(self, is_logical: bool, kind: Sequence[float]) -> int:
        return self.chance.random() < 0.5 if is_logical else self.number(kind)

    def value(self, dummy: Dummy, kind: Sequence[float]) -> Value:
        is_logical, elements = dummy[0] == "logical", dummy[1]
        if elements is None:
            return self.item(is_logical, kind)
        return tuple(self.item(is_logical, kind) for _ in range(elements))


def rows_for(dummies: Sequence[Dummy], constants: Sequence[int], chance: Random) -> Iterator[Row]:
    """Rows for these dummy arguments, without an end."""
    edges = Edges(constants, chance)
    while True:
        kind = chance.choice(KINDS)
        yield tuple(edges.value(dummy, kind) for dummy in dummies)
