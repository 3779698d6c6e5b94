"""The rows that are suggested: few of those that were found, made simpler."""

import time
from collections import Counter
from collections.abc import Sequence

from mutants.pages.cover import bits_of
from mutants.suggestions.covering import few_rows, needed_of, union_of
from mutants.suggestions.rounds import SIZE, Search, Tell
from mutants.suggestions.shapes import Row
from mutants.suggestions.simpler import simpler_rows

# How many rows that kill what few others kill are run at the limit that is asked for; and of how many a small set is
# taken.
POOL, MOST = 2 * SIZE, 8 * SIZE
# In how many turns rows are made simpler at most, and in how many even if nothing became simpler.
TURNS, LEAST_TURNS = 12, 3
# How many simpler rows a row gets in a turn at least; and the share of the time that is not exceeded.
LEAST_TRIES, SHARE = 4, 0.9


class Choice:
    """The chosen rows; what each row kills that was run at the limit; and what they kill together."""

    def __init__(self, search: Search) -> None:
        self.search, self.shape, self.asker = search, search.shape, search.asker
        self.exact = dict(search.exact)
        self.wanted = search.killed
        self.chosen: list[Row] = few_rows(self.wanted, self.exact, self.shape.cost)
        self.cost = 0.0

    def widen(self) -> None:
        """Chooses among more of the rows that were found. These are run at the limit that is asked for first."""
        begun = time.monotonic()
        self.run([row for row in self.pool() if row not in self.exact])
        self.choose()
        self.cost = time.monotonic() - begun

    def choose(self) -> None:
        """Takes the smallest set that is found, unless the set from before is smaller and kills as much."""
        rows = few_rows(self.wanted, self.exact, self.shape.cost)
        if len(rows) <= len(self.chosen) or self.killed() & self.wanted != self.wanted:
            self.chosen = rows

    def killed(self) -> int:
        """The mutants that the chosen rows kill."""
        return union_of(self.exact[row] for row in self.chosen)

    def pool(self) -> list[Row]:
        """The rows of a small set within the limit of the search, and those that kill what few others kill."""
        seen = self.search.seen
        killers = Counter(number for mask in seen.values() for number in bits_of(mask))
        weights = {row: sum(1 / killers[number] for number in bits_of(mask)) for row, mask in seen.items()}
        best = sorted(seen, key=lambda row: (-weights[row], self.shape.cost(row), row))
        few = few_rows(self.wanted, {row: seen[row] for row in best[:MOST]}, self.shape.cost)
        return list(dict.fromkeys([*few, *best[:POOL]]))

    def run(self, rows: Sequence[Row]) -> None:
        """Runs rows at the limit that is asked for. Mutants that they are the first to kill are wanted from here on."""
        ops = self.asker.ops_of(self.asker.whole)
        for at in range(0, len(rows), SIZE):
            ending = self.asker.ending(rows[at : at + SIZE], self.search.steps)
            kills = self.asker.kills(ending, ops, self.asker.steps)
            self.exact.update(kills)
            self.search.tried += [row for row in kills if row not in self.search.known]
            self.search.known.update(kills)
            self.wanted |= union_of(kills.values())

    def simplify(self, tell: Tell) -> None:
        """Makes the chosen rows simpler, as long as there is time."""
        for turn in range(TURNS):
            if not self.chosen or not self.search.clock.has(2 * self.cost, SHARE):
                break
            tell(f"{len(self.chosen)} rows are made simpler")
            begun = time.monotonic()
            has_changed = self.simplify_once()
            self.cost = time.monotonic() - begun
            if not has_changed and turn >= LEAST_TURNS:
                break

    def simplify_once(self) -> bool:
        """Takes simpler rows in the place of chosen ones. The result says whether anything changed."""
        most = max(LEAST_TRIES, SIZE // len(self.chosen))
        tries = {row: simpler_rows(self.shape, row, self.search.chance, most) for row in self.chosen}
        new = dict.fromkeys(row for rows in tries.values() for row in rows if row not in self.exact)
        before = list(self.chosen), self.wanted
        self.run(list(new)[:SIZE])
        # Mutants that these kill and none of the chosen rows did are wanted too.
        more = {row: self.exact[row] for row in new if row in self.exact}
        self.chosen += few_rows(self.wanted & ~self.killed(), more, self.shape.cost)
        for place, row in enumerate(self.chosen):
            needed = needed_of(row, self.chosen, self.wanted, self.exact)
            known = [each for each in tries.get(row, []) if each in self.exact]
            fitting = [row, *(each for each in known if self.exact[each] & needed == needed)]
            self.chosen[place] = min(fitting, key=lambda each: (self.shape.cost(each), each))
        self.choose_fewer()
        return (self.chosen, self.wanted) != before

    def choose_fewer(self) -> None:
        """Takes another set of rows where it has fewer."""
        rows = few_rows(self.wanted, self.exact, self.shape.cost)
        if len(rows) < len(self.chosen):
            self.chosen = rows
