"""Values for an argument, proposed by chance: near those of the tests, made of the program's constants or of other
arguments, or far from all of them."""

import re
from collections.abc import Callable, Sequence
from random import Random

from mutants.jobs.cells import GREATEST, LEAST
from mutants.suggestions.shapes import MARGIN, Argument, Row, Shape, items_of

HALF = GREATEST // 2
# The ends of the range of INTEGER, and numbers beside them; halves; and numbers whose squares leave the range.
ENDS = (GREATEST, LEAST, GREATEST - 1, LEAST + 1, GREATEST - 2, HALF)
EXTREMES = (*ENDS, HALF + 1, -HALF, -HALF - 1, 46340, 46341)
# How often a value is a far one, in a row that may have far values.
FAR_SHARE = 0.55
SMALL = (0, 1, -1, 2, -2)
LABELS = re.compile(r"^DO \d+|GO TO \d+|GO TO \([\d,]+\)|\) ?\d+,\d+,\d+$")


def clamped(value: int) -> int:
    """The value, or the end of INTEGER that is nearest to it."""
    return max(LEAST, min(GREATEST, value))


def constants_of(printed: Sequence[str]) -> list[int]:
    """The whole numbers in the printed statements of a program that are no labels."""
    texts = [LABELS.sub("", statement) for statement in printed]
    numbers = {int(word) for text in texts for word in re.findall(r"(?<![A-Z0-9])\d+", text)}
    return sorted(each for each in numbers if each <= GREATEST)


class Values:
    """Proposes values for an argument, or for an element of one."""

    def __init__(self, shape: Shape, chance: Random) -> None:
        self.shape, self.chance = shape, chance
        ways: list[tuple[int, Callable[[Argument, Row], int]]] = [
            (65, self.beside), (10, self.small), (7, self.of_another), (7, self.within),
        ]  # fmt: skip
        ways += [(4, self.multiple), (7, self.constant)] if shape.constants else [(11, self.of_another)]
        self.weights, self.ways = [weight for weight, _ in ways], [way for _, way in ways]

    def value(self, place: int, row: Row, is_far: bool) -> int:
        """A value for the argument at this place, in a row like this one."""
        argument = self.shape.arguments[place]
        if is_far and self.chance.random() < FAR_SHARE:
            return clamped(self.far(argument, row))
        (way,) = self.chance.choices(self.ways, self.weights)
        return clamped(way(argument, row))

    def numbers(self, row: Row) -> list[int]:
        """The numbers of a row, at least one."""
        pairs = zip(self.shape.arguments, row)
        return [item for each, value in pairs if each.is_integer for item in items_of(value)] or [0]

    def beside(self, argument: Argument, row: Row) -> int:
        """A value of the tests, or one beside it."""
        return self.chance.choice(argument.values) + self.chance.choice((0, 0, 1, -1, 2, -2))

    def small(self, argument: Argument, row: Row) -> int:
        return self.chance.choice(SMALL)

    def multiple(self, argument: Argument, row: Row) -> int:
        """A multiple of a constant of the program within the range of the tests, or one beside it."""
        constant = self.chance.choice(self.shape.constants) or 1
        factor = self.chance.randint(argument.low // constant - 1, argument.high // constant + 2)
        return constant * factor + self.chance.choice((0, 0, 0, 1, -1))

    def constant(self, argument: Argument, row: Row) -> int:
        """A constant of the program or its negative, or a value beside it."""
        constant = self.chance.choice(self.shape.constants) * self.chance.choice((1, 1, 1, -1))
        return constant + self.chance.choice((0, 0, 1, -1, 2, -2))

    def of_another(self, argument: Argument, row: Row) -> int:
        """A value made of other values of the row."""
        numbers = self.numbers(row)
        one, other = self.chance.choice(numbers), self.chance.choice(numbers)
        ways = (one, one + 1, one - 1, -one, one + other, one - other, one + other + 1, one + other - 1)
        return self.chance.choice(ways)

    def within(self, argument: Argument, row: Row) -> int:
        """Any value within the range of the tests."""
        return self.chance.randint(argument.low - MARGIN, argument.high + MARGIN)

    def far(self, argument: Argument, row: Row) -> int:
        """A value at an end of the range of INTEGER, or one that leaves the range together with others; or one far
        beyond the range of the tests."""
        chance, way = self.chance, self.chance.random()
        if way < 0.4:
            return chance.choice(ENDS if chance.random() < 0.7 else EXTREMES)
        if way < 0.75:
            return self.near_an_end(self.numbers(row)) + chance.choice((0, 0, 1, -1))
        width = (argument.high - argument.low + 1) * chance.choice((2, 8, 64))
        return chance.randint(argument.low - width, argument.high + width)

    def near_an_end(self, numbers: Sequence[int]) -> int:
        """A value that together with others reaches an end of the range of INTEGER, or twice or half of that."""
        one, other = self.chance.choice(numbers), self.chance.choice(numbers)
        ends = (GREATEST - one, LEAST + abs(one), GREATEST - abs(one) - abs(other), (GREATEST - one) // 2)
        more = (GREATEST - one // 2, -one, one + other, one - other, one // 2, 2 * one)
        return self.chance.choice((*ends, *more))
