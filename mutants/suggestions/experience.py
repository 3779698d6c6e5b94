"""On which values of the arguments the program failed, and beyond which values. Rows with such values are seldom
tried."""

from collections import Counter
from collections.abc import Collection, Iterable, Sequence

from mutants.suggestions.shapes import Row, Shape

# After how many failures a value is without hope, and after how many all values beyond those on which the program
# ended.
OF_VALUE, OF_SIDE = 3, 6


class Edge:
    """The values of an argument between which the program ended, and how often it failed below and above these."""

    def __init__(self, low: int, high: int) -> None:
        self.low, self.high, self.below, self.above = low, high, 0, 0

    def ended(self, value: int) -> None:
        if value < self.low:
            self.low, self.below = value, 0
        if value > self.high:
            self.high, self.above = value, 0

    def failed(self, value: int) -> None:
        self.below += value < self.low
        self.above += value > self.high

    def is_beyond(self, value: int) -> bool:
        """Whether a value is on a side on which the program only failed."""
        return value < self.low and self.below >= OF_SIDE or value > self.high and self.above >= OF_SIDE


class Experience:
    """What was learned of INTEGER variables. Arrays are not looked at."""

    def __init__(self, shape: Shape) -> None:
        arguments = shape.arguments
        self.edges = {at: Edge(arguments[at].low, arguments[at].high) for at in shape.places(is_array=False)}
        self.good: set[tuple[int, int]] = set()
        self.failures: Counter[tuple[int, int]] = Counter()

    def learn(self, rows: Sequence[Row], ended: Collection[Row]) -> None:
        """Learns on which of the rows the program ended."""
        for row in rows:
            for place, value in self.scalars(row):
                if row in ended:
                    self.good.add((place, value))
                    self.edges[place].ended(value)
                else:
                    self.failures[place, value] += 1
                    self.edges[place].failed(value)

    def scalars(self, row: Row) -> Iterable[tuple[int, int]]:
        values = ((place, row[place]) for place in self.edges)
        return ((place, value) for place, value in values if not isinstance(value, tuple))

    def is_hopeless(self, row: Row) -> bool:
        """Whether the row has a value on which the program only failed, or one beyond which it only failed."""
        return any(
            (place, value) not in self.good
            and (self.failures[place, value] >= OF_VALUE or self.edges[place].is_beyond(value))
            for place, value in self.scalars(row)
        )
