"""Rows made by chance: of other rows, or with all values anew."""

from random import Random

from mutants.suggestions.arrays import changed_numbers, changed_truths
from mutants.suggestions.shapes import Row, Shape, Value, items_of
from mutants.suggestions.values import Values, clamped

# The ways to change a row, with the weight of each, and how many INTEGER variables it needs.
WAYS = ((15, "swapped", 2), (12, "with_equal", 2), (6, "permuted", 3), (7, "with_sum", 3), (5, "alike", 2),
        (7, "mixed", 0), (48, "changed", 0))  # fmt: skip


class Rows:
    """Makes rows."""

    def __init__(self, shape: Shape, chance: Random) -> None:
        self.shape, self.chance, self.values = shape, chance, Values(shape, chance)
        self.scalars = [place for place in shape.places(is_array=False) if place not in shape.only_set]

    def other(self, place: int, row: Row, is_far: bool) -> Value:
        """Another value for the argument at this place, which may be the same by chance."""
        argument, value = self.shape.arguments[place], row[place]
        if place in self.shape.only_set:
            items = tuple(type(item)(self.chance.randrange(2)) for item in items_of(value))
            return items if isinstance(value, tuple) else items[0]
        if isinstance(value, tuple):
            if not argument.is_integer:
                return changed_truths(value, self.chance)
            return changed_numbers(value, self.chance, lambda: self.values.value(place, row, is_far))
        return self.values.value(place, row, is_far) if argument.is_integer else not value

    def child(self, row: Row, partner: Row, is_far: bool) -> Row:
        """A row near another one, or between two."""
        (way, needs) = self.chance.choices([each[1:] for each in WAYS], [each[0] for each in WAYS])[0]
        if len(self.scalars) < needs:
            way = self.chance.choice(("mixed", "changed"))
        if way == "mixed":
            return tuple(one if self.chance.random() < 0.5 else other for one, other in zip(row, partner))
        if way == "alike":
            return self.alike(row, is_far)
        return self.changed(row, is_far) if way == "changed" else self.tied(row, way)

    def alike(self, row: Row, is_far: bool) -> Row:
        """All INTEGER variables get the same value."""
        value = self.values.value(self.chance.choice(self.scalars), row, is_far)
        return tuple(value if place in self.scalars else other for place, other in enumerate(row))

    def changed(self, row: Row, is_far: bool) -> Row:
        """One to three arguments get other values."""
        values = list(row)
        for _ in range(self.chance.choice((1, 1, 1, 2, 3))):
            place = self.chance.randrange(len(values))
            values[place] = self.other(place, tuple(values), is_far)
        return tuple(values)

    def tied(self, row: Row, way: str) -> Row:
        """INTEGER variables get values of others of the row, or values made of these."""
        values, chance, scalars = list(row), self.chance, self.scalars
        numbers = {place: int(value) for place, value in enumerate(row) if not isinstance(value, tuple)}
        if way == "permuted":
            shuffled = list(scalars)
            chance.shuffle(shuffled)
            for place, other in zip(scalars, shuffled):
                values[place] = row[other]
        elif way == "with_sum":
            place, one, other = chance.sample(scalars, 3)
            total = chance.choice((numbers[one] + numbers[other], numbers[one] - numbers[other]))
            values[place] = clamped(total + chance.choice((0, 0, 1, -1)))
        else:
            place, other = chance.sample(scalars, 2)
            if way == "swapped":
                values[place], values[other] = values[other], values[place]
            else:
                values[place] = clamped(numbers[other] + chance.choice((0, 0, 0, 1, -1)))
        return tuple(values)

    def anew(self, row: Row, is_far: bool) -> Row:
        """A row in which each argument has another value."""
        values = list(row)
        for place, argument in enumerate(self.shape.arguments):
            if place in self.shape.only_set:
                values[place] = self.other(place, tuple(values), is_far)
            elif argument.is_array:
                values[place] = self.array_anew(place, row, is_far)
            elif argument.is_integer:
                values[place] = self.other(place, tuple(values), is_far)
            else:
                values[place] = self.chance.random() < 0.5
        return tuple(values)

    def array_anew(self, place: int, row: Row, is_far: bool) -> Value:
        """An array that is changed twice, or whose elements are all new."""
        if self.shape.arguments[place].is_integer and self.chance.random() < 0.5:
            value = row[place]
            assert isinstance(value, tuple)
            return tuple(self.values.value(place, row, is_far) for _ in value)
        values = list(row)
        for _ in range(2):
            values[place] = self.other(place, tuple(values), is_far)
        return values[place]
