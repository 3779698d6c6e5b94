"""The smallest set of tests that kills all that a suite kills, found as a smallest set of columns that meets each row.

A mutant is a number whose bits are the tests that kill it. A mutant whose killers include all those of another one is
met wherever that one is, and a test that kills no more than another test is not needed. Both are left out first, until
nothing changes, which settles most suites. What is left is searched by branch and bound: it branches at the mutant with
the fewest killers, and mutants that share no killer give the bound. If 2,000 branches suffice, the set is a smallest
one, and the page says so. Else the search is given up, and the set is that of the greedy rule: again and again the test
that kills the most of what is left. Settled were 2,543 tests of the triangle, and tables of 25 tests and 600 mutants
drawn at random; not settled were 60 tests and 500 mutants drawn at random.
"""

from collections.abc import Iterable

from mutants.texts.subsuming import least_sets

BRANCHES = 2_000


class GivenUp(Exception):
    """The search has used up all its branches."""


def bits_of(number: int) -> list[int]:
    """The places of the bits that are 1, ascending."""
    places = []
    while number:
        lowest = number & -number
        places.append(lowest.bit_length() - 1)
        number ^= lowest
    return places


def columns_of(rows: Iterable[int]) -> dict[int, int]:
    """For each test the rows that it is in, as bits."""
    columns: dict[int, int] = {}
    for place, row in enumerate(rows):
        for test in bits_of(row):
            columns[test] = columns.get(test, 0) | 1 << place
    return columns


def needless(rows: Iterable[int]) -> int:
    """The tests that are only in rows of another test, as bits. Of tests in the same rows the first is kept."""
    kept: list[int] = []
    unneeded = 0
    columns = columns_of(rows)
    for test in sorted(columns, key=lambda test: (-columns[test].bit_count(), test)):
        if any(columns[test] & other == columns[test] for other in kept):
            unneeded |= 1 << test
        else:
            kept.append(columns[test])
    return unneeded


def reduced(rows: list[int]) -> list[int]:
    """Rows that need the same as the given ones: no row contains another, and no test is needless."""
    while True:
        rows = least_sets(rows)
        without = needless(rows)
        if not without:
            return rows
        rows = [row & ~without for row in rows]


def greedy(rows: list[int]) -> int:
    """Tests that meet all rows: again and again the first of those that are in the most of the rows that are left."""
    chosen = 0
    while rows:
        columns = columns_of(rows)
        test = min(columns, key=lambda test: (-columns[test].bit_count(), test))
        chosen |= 1 << test
        rows = [row for row in rows if not row >> test & 1]
    return chosen


def apart(rows: Iterable[int]) -> int:
    """How many rows are found that share no test. At least this many tests are needed."""
    seen = count = 0
    for row in sorted(rows, key=int.bit_count):
        if not row & seen:
            seen |= row
            count += 1
    return count


def without_forced(rows: list[int]) -> tuple[int, list[int]]:
    """The tests that are the only ones left for some row, as bits, and the rows that these do not meet."""
    rows, forced = reduced(rows), 0
    for row in rows:
        forced |= row if row.bit_count() == 1 else 0
    return forced, [row for row in rows if not row & forced]


class Search:
    """The smallest set that is found, and the branches that may still be taken."""

    def __init__(self, best: int, branches: int) -> None:
        self.best, self.left = best, branches

    def go(self, rows: list[int], chosen: int) -> None:
        forced, rows = without_forced(rows)
        chosen |= forced
        if not rows:
            self.best = min(self.best, chosen, key=int.bit_count)
            return
        if chosen.bit_count() + apart(rows) >= self.best.bit_count():
            return
        columns = columns_of(rows)
        narrow = min(rows, key=int.bit_count)
        for test in sorted(bits_of(narrow), key=lambda test: (-columns[test].bit_count(), test)):
            self.left -= 1
            if self.left < 0:
                raise GivenUp
            self.go([row for row in rows if not row >> test & 1], chosen | 1 << test)
            # From here on only sets without this test are searched.
            rows = [row & ~(1 << test) for row in rows]


def smallest_set(rows: Iterable[int], branches: int = BRANCHES) -> tuple[list[int], bool]:
    """The places of tests, ascending, so that each row that is not 0 has one of them; and whether no smaller set has
    that."""
    forced, left = without_forced([row for row in rows if row])
    by_greed = greedy(left)
    search = Search(by_greed, branches)
    try:
        search.go(left, 0)
    except GivenUp:
        return bits_of(forced | by_greed), False
    return bits_of(forced | search.best), True
