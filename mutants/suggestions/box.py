"""All rows of a box, in order: each argument from its least value to its greatest, and each element of an array.

A mutant that no row of the box kills may still be killed by a row outside. So the result is more than a hint at
equivalence, and less than a proof.
"""

import math
from collections.abc import Iterator, Mapping, Sequence
from itertools import islice, product
from typing import Any, NamedTuple

from mutants.declarations.boxes import Searched
from mutants.english import joined_words
from mutants.jobs.setting import zeros_of
from mutants.pages.cover import bits_of
from mutants.suggestions.aims import place_of
from mutants.suggestions.rounds import SIZE, Search, Tell
from mutants.suggestions.shapes import Range, Row, Scalar, Value
from mutants.suggestions.tables import Layout
from mutants.texts.dummies import Dummy, read_unit
from mutants.texts.twins import name_of

# The most rows of a box; and of how many rows it is asked to which lines they come.
MOST, ASKED = 1_000_000, 8 * SIZE


class Side(NamedTuple):
    """The values that an argument may have, or each of its elements where it is an array."""

    values: Sequence[Scalar]
    elements: int | None

    @property
    def ways(self) -> int:
        return int(len(self.values) ** (self.elements or 1))

    def all(self) -> Iterator[Value]:
        return iter(self.values) if self.elements is None else product(self.values, repeat=self.elements)


class Box(NamedTuple):
    """The sides, in the order of the arguments; and those that were asked for, in words."""

    sides: Sequence[Side]
    text: str

    @property
    def size(self) -> int:
        return math.prod(side.ways for side in self.sides)

    def rows(self) -> Iterator[Row]:
        return product(*(side.all() for side in self.sides))


def side_of(name: str, dummy: Dummy, ranges: Mapping[str, Range], zeros: Mapping[str, Any]) -> Side:
    """The values of an argument: those that were asked for, both truth values, or 0 where it is only set."""
    kind, elements = dummy
    if name in ranges and kind == "logical":
        raise ValueError(f"{name} is LOGICAL, and has both truth values without a word in --within")
    if name in ranges:
        low, high = ranges[name]
        return Side(range(low, high + 1), elements)
    if name in zeros:
        return Side((False,) if kind == "logical" else (0,), elements)
    if kind == "logical":
        return Side((False, True), elements)
    raise ValueError(f"--within says nothing of {name}, which the program reads")


def box_of(asked: Sequence[tuple[str, Range]], source: str, names: Sequence[str]) -> Box:
    """The box of these ranges; ValueError says what it leaves open, or that it has too many rows."""
    ranges = {names[place_of(word, names)]: limits for word, limits in asked}
    zeros = zeros_of(source, names)
    sides = [side_of(name, dummy, ranges, zeros) for name, dummy in zip(names, read_unit(source)[1])]
    box = Box(sides, joined_words(f"{name} from {low} to {high}" for name, (low, high) in ranges.items()))
    if box.size > MOST:
        raise ValueError(f"the box has {box.size:,} rows, and {MOST:,} are tried at most")
    return box


class BoxSearch(Search):
    """A search that tries the rows of a box in order, under the limit on steps that is asked for."""

    def put(self, box: Box) -> None:
        self.box, self.count, self.is_whole = box, 0, False

    def begin(self, tests: Sequence[Row], cost_of_row: float) -> None:
        pass

    def go(self, tell: Tell) -> None:
        """Tries rows until nothing survives, or none is left."""
        rows = self.box.rows()
        while self.alive and (part := list(islice(rows, SIZE))):
            self.try_rows(part)
            left = self.alive.bit_count()
            tell(f"{self.count} of {self.box.size} rows: {left} of {len(self.asker.mutants)} survivors are left")
        self.is_whole = True

    def try_rows(self, rows: list[Row]) -> None:
        self.round_number += 1
        kills = self.asker.kills(self.asker.ending(rows, self.steps), self.asker.ops_of(self.alive), self.steps)
        self.count += len(rows)
        self.failed += len(rows) - len(kills)
        self.tried += list(kills)[: ASKED - len(self.tried)]
        for row, mask in kills.items():
            if mask & self.alive:
                self.exact[row] = mask
                self.alive &= ~mask

    def results(self, layout: Layout) -> dict[str, Searched]:
        """What the rows say of each survivor, by its name, if all rows were tried: the first row that kills it."""
        killers = {number: row for row, mask in reversed(self.exact.items()) for number in bits_of(mask)}
        rows = {number: layout.line(row) for number, row in killers.items()}
        box, mutants = (self.box.text, self.box.size), self.asker.mutants if self.is_whole else []
        return {name_of(mutant): Searched(*box, rows.get(number, "")) for number, mutant in enumerate(mutants)}
