"""Rows that are easier to look at than a given one, and are near it."""

from collections.abc import Iterable
from itertools import chain
from random import Random

from mutants.suggestions.shapes import Row, Scalar, Shape, Value, items_of

# How many of the first and of the last values that the tests have for an argument are tried.
FIRST, LAST = 6, 3
Items = tuple[Scalar, ...]


def with_item(items: Items, place: int, item: Scalar) -> Items:
    return (*items[:place], item, *items[place + 1 :])


def simpler_items(shape: Shape, place: int, items: Items) -> Iterable[Items]:
    """The numbers of an argument, with one of them smaller, nearer to those of the tests, or one of those."""
    argument = shape.arguments[place]
    values = argument.values
    for at, item in enumerate(items):
        nearest = min(max(item, argument.low), argument.high)
        more = (*values[:FIRST], *values[-LAST:], item // 2, item - 1 if item > 0 else item + 1)
        for other in dict.fromkeys((0, 1, 2, -1, nearest, *more)):
            if other != item:
                yield with_item(items, at, other)


def simpler_arrays(shape: Shape, place: int, items: Items) -> Iterable[Items]:
    """An array of numbers in order, within the range of the tests, as ranks, or with neighbours that are the same."""
    argument, ranks = shape.arguments[place], sorted(set(items))
    yield tuple(sorted(items))
    yield tuple(min(max(item, argument.low), argument.high) for item in items)
    yield tuple(ranks.index(item) + 1 for item in items)
    for at in range(len(items)):
        yield with_item(items, at, items[at - 1])


def flipped(items: Items) -> Iterable[Items]:
    """An array of truth values with one that is another, .FALSE. first."""
    for at in sorted(range(len(items)), key=lambda at: not items[at]):
        yield with_item(items, at, not items[at])


def simpler_values(shape: Shape, place: int, value: Value) -> Iterable[Value]:
    argument, items = shape.arguments[place], items_of(value)
    if not argument.is_integer:
        return flipped(items) if argument.is_array else ()
    if not argument.is_array:
        return (each[0] for each in simpler_items(shape, place, items))
    return chain(simpler_items(shape, place, items), simpler_arrays(shape, place, items))


def simpler_rows(shape: Shape, row: Row, chance: Random, most: int) -> list[Row]:
    """Rows like this one that cost less, the cheapest first; where there are many, some by chance."""
    tries = (
        shape.kept((*row[:place], value, *row[place + 1 :]))
        for place in range(len(row))
        for value in simpler_values(shape, place, row[place])
    )
    here = shape.cost(row)
    simpler = [each for each in dict.fromkeys(tries) if each is not None and shape.cost(each) < here]
    if len(simpler) > most:
        chance.shuffle(simpler)
    return sorted(simpler[:most], key=lambda each: (shape.cost(each), each))
