"""What the tests of a table show of the arguments: kinds, ranges, values, and the order of an array."""

from collections.abc import Collection, Iterable, Mapping, Sequence
from typing import Any, NamedTuple

# A value of a row is a number, a truth value, or all elements of an array. A row has a value for each argument.
Scalar = int
Value = Scalar | tuple[Scalar, ...]
Row = tuple[Value, ...]
Range = tuple[int, int]

# How far beyond the values of the tests (and 0) a value may be without being far from them.
MARGIN = 2
# What a value far from the tests costs, and each of its binary digits; digits of other values cost 2, known values 1.
FAR, FAR_DIGIT = 16, 8


def items_of(value: Value) -> tuple[Scalar, ...]:
    return value if isinstance(value, tuple) else (value,)


def row_of(test: Iterable[Any]) -> Row:
    """The row of a test, as a value that can be hashed."""
    return tuple(tuple(value) if isinstance(value, list) else value for value in test)


def test_of(row: Row) -> list[Any]:
    return [list(value) if isinstance(value, tuple) else value for value in row]


class Argument(NamedTuple):
    """An argument: its kind, whether it is an array, and the values that the tests have for it."""

    is_integer: bool
    is_array: bool
    values: tuple[Scalar, ...]

    @property
    def low(self) -> Scalar:
        return self.values[0]

    @property
    def high(self) -> Scalar:
        return self.values[-1]

    def is_near(self, value: Scalar) -> bool:
        """Whether a value is not far from those of the tests."""
        return not self.is_integer or min(self.low, 0) - MARGIN <= value <= max(self.high, 0) + MARGIN


class Order(NamedTuple):
    """The order that an array is in."""

    is_falling: bool
    is_strict: bool

    def text(self) -> str:
        return f"{'strictly ' if self.is_strict else ''}{'descending' if self.is_falling else 'ascending'}"

    def kept(self, value: Value) -> Value | None:
        """The array in this order; None where it cannot be."""
        ordered = tuple(sorted(items_of(value), reverse=self.is_falling))
        return None if self.is_strict and len(set(ordered)) < len(ordered) else ordered


def argument_of(values: Sequence[Value]) -> Argument:
    """What these values of an argument show of it."""
    items = [item for value in values for item in items_of(value)]
    return Argument(not isinstance(items[0], bool), isinstance(values[0], tuple), tuple(sorted(set(items))))


def order_of(values: Sequence[Value]) -> Order | None:
    """The order that all these arrays have; None where they have none, or nothing shows one."""
    arrays = [items_of(value) for value in values if isinstance(value, tuple)]
    has_steps = len(set(arrays)) > 1 and any(array[0] != array[-1] for array in arrays)
    if not has_steps or isinstance(arrays[0][0], bool):
        return None
    for is_falling in (False, True):
        if all(list(array) == sorted(array, reverse=is_falling) for array in arrays):
            return Order(is_falling, all(len(set(array)) == len(array) for array in arrays))
    return None


class Kept(NamedTuple):
    """What all rows keep, by the places of the arguments: orders of arrays, and ranges of values; and whether every
    value is near those of the tests."""

    orders: Mapping[int, Order]
    ranges: Mapping[int, Range]
    is_near: bool = False


class Shape:
    """The arguments as the tests have them, which of them are only set, and what rows have to keep."""

    def __init__(
        self, suite: Sequence[Row], constants: Sequence[int], kept: Kept, only_set: Collection[int] = ()
    ) -> None:
        self.only_set = frozenset(only_set)
        self.arguments = [argument_of(values) for values in zip(*suite)]
        self.constants, self.keeps = list(constants), kept
        self.known = [frozenset(argument.values) for argument in self.arguments]
        self.costs: dict[Row, int] = {}

    def simple(self, row: Row) -> Row:
        """The row with 0 or .FALSE. for arguments that are only set."""
        zeros = [tuple(False if isinstance(item, bool) else 0 for item in items_of(value)) for value in row]
        simple: list[Value] = [zero if isinstance(value, tuple) else zero[0] for zero, value in zip(zeros, row)]
        return tuple(simple[at] if at in self.only_set else value for at, value in enumerate(row))

    def places(self, is_array: bool) -> list[int]:
        """The places of the INTEGER arguments that are arrays, or are none."""
        return [at for at, each in enumerate(self.arguments) if each.is_integer and each.is_array == is_array]

    def is_near(self, row: Row) -> bool:
        """Whether no value of a row is far from those of the tests."""
        return all(each.is_near(item) for each, value in zip(self.arguments, row) for item in items_of(value))

    def kept(self, row: Row) -> Row | None:
        """The row with its arrays in the order that is kept; None where a value is out of what is kept."""
        if self.keeps.orders:
            orders = map(self.keeps.orders.get, range(len(row)))
            values = [order.kept(value) if order else value for order, value in zip(orders, row)]
            ordered = tuple(value for value in values if value is not None)
            if len(ordered) < len(row):
                return None
            row = ordered
        for at, (low, high) in self.keeps.ranges.items():
            if any(not low <= item <= high for item in items_of(row[at])):
                return None
        return row if not self.keeps.is_near or self.is_near(row) else None

    def cost(self, row: Row) -> int:
        """How unwelcome a row is to a person who has to check it by hand."""
        cost = self.costs.get(row)
        if cost is None:
            cost = self.costs[row] = sum(map(self.value_cost, range(len(row)), row))
        return cost

    def value_cost(self, place: int, value: Value) -> int:
        argument, items = self.arguments[place], items_of(value)
        if not argument.is_integer:
            return 2 * sum(one != next_one for one, next_one in zip(items, items[1:]))
        return sum(one > next_one for one, next_one in zip(items, items[1:])) + sum(
            self.item_cost(place, item) for item in items
        )

    def item_cost(self, place: int, item: Scalar) -> int:
        digits = item.bit_length()
        cost = digits if item in self.known[place] else 2 * digits
        return cost if self.arguments[place].is_near(item) else cost + FAR + FAR_DIGIT * digits
