"""Rows between two rows that kill different mutants of a line: somewhere between these lies what decides, such as an
equality.

The way from one row to the other has steps. Of the steps whose ends still differ, some are divided again, until they
are as small as can be.
"""

from collections.abc import Collection, Iterable, Mapping, Sequence
from random import Random
from typing import NamedTuple

from mutants.suggestions.shapes import Row, Scalar, Shape, Value, items_of

# How many steps a way has; how many ways begin in a round, and how many are kept; and how often two rows are looked at.
STEPS, BEGUN, KEPT, TRIES = 8, 48, 400, 200
# How many steps of a way are divided again.
AGAIN = 2
# How often the rows may have no far value.
NEAR = 0.8


class End(NamedTuple):
    """A row, and what it kills."""

    row: Row
    kills: int


class Way(NamedTuple):
    """A way from one row to another: the mutants of the line, and the rows between them."""

    one: End
    other: End
    line: int
    between: tuple[Row, ...] = ()


def flat(row: Row) -> list[Scalar]:
    return [item for value in row for item in items_of(value)]


def shaped(items: Sequence[Scalar], row: Row) -> Row:
    """The row with these items whose values are as those of another one."""
    values: list[Value] = []
    at = 0
    for value in row:
        count = len(items_of(value))
        values.append(tuple(items[at : at + count]) if isinstance(value, tuple) else items[at])
        at += count
    return tuple(values)


def is_apart(one: Row, other: Row) -> bool:
    """Whether there may be rows between two."""
    differences = [abs(a - b) for a, b in zip(flat(one), flat(other)) if a != b]
    return len(differences) > 1 or any(each > 1 for each in differences)


class Borders:
    """The ways that are searched, between rows whose kills are known."""

    def __init__(self, shape: Shape, chance: Random, lines: Iterable[int]) -> None:
        self.shape, self.chance, self.lines = shape, chance, list(lines)
        self.ways: list[Way] = []
        self.gone: list[Way] = []

    def begin(self, alive: int, kills: Mapping[Row, int]) -> None:
        """Begins ways between rows that kill different mutants of a line with survivors that are left."""
        lines = [line for line in self.lines if line & alive]
        every = list(kills)
        near = [row for row in every if self.shape.is_near(row)] or every
        for _ in range(TRIES):
            if len(self.ways) >= BEGUN:
                return
            rows, line = near if self.chance.random() < NEAR else every, self.chance.choice(lines)
            one, other = self.chance.choice(rows), self.chance.choice(rows)
            if (kills[one] ^ kills[other]) & line:
                self.ways.append(Way(End(one, kills[one]), End(other, kills[other]), line))

    def rows(self, known: Collection[Row], most: int) -> list[Row]:
        """Rows on the ways, about `most`."""
        made: dict[Row, None] = {}
        self.gone = []
        while self.ways and len(made) < most - STEPS:
            way = self.ways.pop()
            kept = (self.shape.kept(row) for row in self.between(way.one.row, way.other.row))
            steps = tuple(row for row in kept if row is not None and row not in known and row not in made)
            if steps:
                self.gone.append(way._replace(between=steps))
                made.update(dict.fromkeys(steps))
        return list(made)

    def between(self, one: Row, other: Row) -> list[Row]:
        """Rows on the way. Where one number differs, rows with numbers between; else rows with some of the
        differences."""
        items, others = flat(one), flat(other)
        places = [place for place, pair in enumerate(zip(items, others)) if pair[0] != pair[1]]
        if len(places) == 1 and not isinstance(items[places[0]], bool):
            return [shaped(each, one) for each in self.numbers_between(items, others, places[0])]
        self.chance.shuffle(places)
        cuts = sorted({len(places) * step // STEPS for step in range(1, STEPS)} - {0})
        changed = ({place: others[place] for place in places[:cut]} for cut in cuts)
        return [shaped([each.get(place, item) for place, item in enumerate(items)], one) for each in changed]

    def numbers_between(self, items: list[Scalar], others: list[Scalar], place: int) -> Iterable[list[Scalar]]:
        begin, gap = items[place], others[place] - items[place]
        values = dict.fromkeys(begin + gap * step // STEPS for step in range(1, STEPS))
        for value in values:
            if value not in (begin, begin + gap):
                yield [*items[:place], value, *items[place + 1 :]]

    def learn(self, kills: Mapping[Row, int]) -> None:
        """Keeps those steps of the ways that were tried whose ends kill different mutants."""
        for way in self.gone:
            ends = [way.one, *(End(row, kills[row]) for row in way.between if row in kills), way.other]
            pairs = [(one, other) for one, other in zip(ends, ends[1:]) if (one.kills ^ other.kills) & way.line]
            fitting = [Way(one, other, way.line) for one, other in pairs if is_apart(one.row, other.row)]
            self.ways += fitting[:AGAIN] if len(ends) > 2 and len(self.ways) < KEPT else []
