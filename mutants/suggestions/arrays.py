"""Arrays changed by chance."""

from collections.abc import Callable
from random import Random
from typing import TypeVar

from mutants.suggestions.shapes import Scalar
from mutants.suggestions.values import clamped

Array = tuple[Scalar, ...]
# What proposes a value for an element.
Propose = Callable[[], int]
Way = Callable[[list[int], Random, Propose], list[int]]
LogicalWay = Callable[[list[bool], Random], list[bool]]
Item = TypeVar("Item", int, bool)


def swapped(values: list[Item], chance: Random) -> list[Item]:
    one, other = chance.randrange(len(values)), chance.randrange(len(values))
    values[one], values[other] = values[other], values[one]
    return values


def rotated(values: list[Item], chance: Random) -> list[Item]:
    first = chance.randrange(len(values))
    return values[first:] + values[:first]


def with_elements(values: list[int], chance: Random, propose: Propose) -> list[int]:
    """One to three elements are changed."""
    for _ in range(chance.choice((1, 1, 1, 2, 3))):
        values[chance.randrange(len(values))] = propose()
    return values


def with_equal(values: list[int], chance: Random, propose: Propose) -> list[int]:
    """An element gets the value at another place, or one beside that value."""
    one, other = chance.randrange(len(values)), chance.randrange(len(values))
    values[one] = clamped(values[other] + chance.choice((0, 0, 0, 1, -1)))
    return values


def of_few(values: list[int], chance: Random, propose: Propose) -> list[int]:
    """All elements have one of two or three values."""
    few = [propose() for _ in range(chance.choice((2, 2, 3)))]
    return [chance.choice(few) for _ in values]


def in_steps(values: list[int], chance: Random, propose: Propose) -> list[int]:
    first, step = propose(), chance.choice((1, 1, 2, -1, 3))
    return [clamped(first + step * place) for place in range(len(values))]


def shuffled(values: list[int], chance: Random, propose: Propose) -> list[int]:
    chance.shuffle(values)
    return values


WAYS: tuple[tuple[int, Way], ...] = (
    (35, with_elements),
    (15, lambda values, chance, propose: swapped(values, chance)),
    (12, with_equal),
    (4, lambda values, chance, propose: sorted(values)),
    (4, lambda values, chance, propose: sorted(values, reverse=True)),
    (3, lambda values, chance, propose: [propose()] * len(values)),
    (6, of_few),
    (4, shuffled),
    (4, lambda values, chance, propose: rotated(values, chance)),
    (2, lambda values, chance, propose: [clamped(-value) for value in values]),
    (4, in_steps),
    (7, lambda values, chance, propose: [propose() for _ in values]),
)


def with_flips(values: list[bool], chance: Random) -> list[bool]:
    """One to three elements get the other truth value."""
    for _ in range(chance.choice((1, 1, 1, 2, 3))):
        place = chance.randrange(len(values))
        values[place] = not values[place]
    return values


def all_but_few(values: list[bool], chance: Random, most: bool) -> list[bool]:
    """All elements but three at most are the same."""
    array = [most] * len(values)
    for _ in range(chance.choice((0, 1, 1, 2, 3))):
        array[chance.randrange(len(array))] = not most
    return array


def of_a_share(values: list[bool], chance: Random) -> list[bool]:
    """Each element is .TRUE. with the same probability."""
    share = chance.choice((0.1, 0.2, 0.35, 0.5, 0.8))
    return [chance.random() < share for _ in values]


LOGICAL_WAYS: tuple[tuple[int, LogicalWay], ...] = (
    (45, with_flips),
    (10, lambda values, chance: all_but_few(values, chance, False)),
    (7, lambda values, chance: all_but_few(values, chance, True)),
    (18, of_a_share),
    (10, swapped),
    (10, rotated),
)


def changed_numbers(array: Array, chance: Random, propose: Propose) -> Array:
    """An array of numbers, changed in one way."""
    (way,) = chance.choices([way for _, way in WAYS], [weight for weight, _ in WAYS])
    return tuple(way(list(array), chance, propose))


def changed_truths(array: Array, chance: Random) -> Array:
    """An array of truth values, changed in one way."""
    (way,) = chance.choices([way for _, way in LOGICAL_WAYS], [weight for weight, _ in LOGICAL_WAYS])
    return tuple(way([bool(each) for each in array], chance))
