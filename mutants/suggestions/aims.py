"""What is asked of a search beside the program and its tests."""

import re
from collections.abc import Iterable, Mapping, Sequence
from typing import NamedTuple

from mutants.jobs.cells import GREATEST, LEAST
from mutants.suggestions.shapes import Kept, Order, Range, Row, order_of

NUMBER = r"[+-]?\d{1,10}"
# The seconds of a search where neither seconds nor rounds are given.
SECONDS = 30.0


class Aim(NamedTuple):
    """How long is searched, with which seed, what rows keep, and the box whose rows are all tried, where one is asked
    for. Arguments are named as in the words of the call."""

    seconds: float | None = SECONDS
    rounds: int | None = None
    seed: int = 1
    is_near: bool = False
    ranges: Sequence[tuple[str, Range]] = ()
    free: Sequence[str] = ()
    drops: bool = False
    within: Sequence[tuple[str, Range]] = ()


def read_ranges(word: str) -> list[tuple[str, Range]]:
    """The ranges of --ranges, such as 2=0:8,KEY=-1:9."""
    ranges = []
    for part in word.split(","):
        match = re.fullmatch(rf"\s*(\w+)\s*=\s*({NUMBER})\s*:\s*({NUMBER})\s*", part)
        if not match:
            raise ValueError(f"{part.strip()!r} is no range of an argument, as 2=0:8 or N=0:8")
        low, high = int(match[2]), int(match[3])
        if not LEAST <= low <= high <= GREATEST:
            raise ValueError(f"{part.strip()!r} has no value: a range is from its least value to its greatest")
        ranges.append((match[1], (low, high)))
    return ranges


def place_of(word: str, names: Sequence[str]) -> int:
    """The place of the argument that a word names, by its number from 1 or by its name."""
    if word.upper() in names:
        return names.index(word.upper())
    if word.isdecimal() and 0 < int(word) <= len(names):
        return int(word) - 1
    known = ", ".join(f"{number} {name}" for number, name in enumerate(names, 1))
    raise ValueError(f"{word} is no argument: these are {known or 'none'}")


def ranges_of(aim: Aim, names: Sequence[str], suite: Sequence[Row]) -> dict[int, Range]:
    """The ranges by the places of the arguments. Each test has to be within them."""
    ranges = {}
    for word, (low, high) in aim.ranges:
        place = place_of(word, names)
        ranges[place] = (low, high)
    for number, row in enumerate(suite, 1):
        assert_within(number, row, ranges, names)
    return ranges


def assert_within(number: int, row: Row, ranges: Mapping[int, Range], names: Sequence[str]) -> None:
    for place, (low, high) in ranges.items():
        value = row[place]
        items = value if isinstance(value, tuple) else (value,)
        if any(isinstance(item, bool) for item in items):
            raise ValueError(f"{names[place]} is LOGICAL, and --ranges are of numbers")
        if not all(low <= item <= high for item in items):
            raise ValueError(f"test {number} has a value of {names[place]} that is not from {low} to {high}")


def orders_of(aim: Aim, names: Sequence[str], suite: Sequence[Row]) -> dict[int, Order]:
    """The orders that the arrays of all tests have, without the arguments that are free."""
    free = {place_of(word, names) for word in aim.free}
    orders = {place: order_of(values) for place, values in enumerate(zip(*suite)) if place not in free}
    return {place: order for place, order in orders.items() if order is not None}


def kept_of(aim: Aim, names: Sequence[str], suite: Sequence[Row]) -> Kept:
    return Kept(orders_of(aim, names, suite), ranges_of(aim, names, suite), aim.is_near)


def kept_lines(kept: Kept, names: Sequence[str]) -> Iterable[str]:
    """What all suggested rows keep, in sentences."""
    for place, order in kept.orders.items():
        what = f"{names[place]} is in {order.text()} order, as in all tests (--free {place + 1} lifts this)"
        yield f"Kept: {what}."
    for place, (low, high) in kept.ranges.items():
        yield f"Kept: {names[place]} is from {low} to {high} (--ranges)."
    if kept.is_near:
        yield "Kept: no value is far from those of the tests (--nice)."
