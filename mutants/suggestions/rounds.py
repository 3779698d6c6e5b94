"""The search: rounds of rows. Each round keeps the rows that kill a survivor."""

import time
from collections.abc import Callable, Sequence
from random import Random

from mutants.suggestions.asking import Asker
from mutants.suggestions.borders import Borders
from mutants.suggestions.clock import Clock
from mutants.suggestions.experience import Experience
from mutants.suggestions.rows import Rows
from mutants.suggestions.shapes import Row, Shape

# How many rows a round has, and after how many rounds without a kill a search ends.
SIZE, PATIENCE = 256, 40
LEAST_SIZE = 16
# Which share of the time a search takes, and which share of what is left of that a round takes.
SHARE, OF_ROUND = 0.55, 6
# How many times as many rows a round may have as the one before.
GROWTH = 4
# How many times the steps that the tests need are the limit of the search; and the least limit.
TIMES, LEAST_STEPS = 8, 300
# Where the number of all mutants times the limit is more, operators without survivors are left out.
LARGE = 400_000
# Which share of the rows has far values: in the first rounds, later, and after some rounds without a kill.
FAR_SHARES, FIRST_ROUNDS, SOME_DRY = (0.15, 0.35, 0.5), 3, 5
# Which share of the rows has all values new: in the first rounds, and later.
ANEW_SHARES = (0.35, 0.15)
# The probability that a row with a value without hope is tried; and how many proposals are made for each row.
HOPE, PROPOSALS = 0.05, 20
Tell = Callable[[str], None]


class Search:
    """A search: the survivors that are left, and the rows that kill others."""

    def __init__(self, asker: Asker, shape: Shape, suite: Sequence[Row], chance: Random, rounds: int | None) -> None:
        self.asker, self.shape, self.chance, self.most = asker, shape, chance, rounds
        self.rows, self.experience = Rows(shape, chance), Experience(shape)
        self.borders = Borders(shape, chance, asker.lines())
        self.suite, self.elite = list(suite), list(map(shape.simple, suite))
        # The mutants that are left, and those that are proved equivalent after the search began, as bits.
        self.alive, self.proved = asker.whole, 0
        # What each row kills: within the limit of the search, and within the limit that is asked for.
        self.seen: dict[Row, int] = {}
        self.exact: dict[Row, int] = {}
        self.known: set[Row] = set(suite)
        self.tried: list[Row] = []
        self.round_number = self.last_round = self.dry = self.failed = 0
        self.size, self.cost = SIZE, 0.0
        self.steps = asker.steps

    @property
    def clock(self) -> Clock:
        return self.asker.clock

    @property
    def killed(self) -> int:
        """The mutants that rows kill, as bits."""
        return self.asker.whole & ~self.alive & ~self.proved

    def begin(self, tests: Sequence[Row], cost_of_row: float) -> None:
        """Finds the limit on steps of the search, and how many rows a round may have."""
        needed = self.asker.steps_needed(tests) if tests else self.steps // TIMES
        self.steps = min(self.steps, max(LEAST_STEPS, TIMES * needed))
        left = self.clock.left(SHARE)
        if left is not None and cost_of_row * SIZE > left / OF_ROUND:
            self.size = max(LEAST_SIZE, int(left / OF_ROUND / cost_of_row))

    def go(self, tell: Tell) -> None:
        """Makes rounds until no survivor is left, the time or the rounds are over, or nothing more is found."""
        while self.alive and self.dry < PATIENCE and self.may_go_on():
            begun = time.monotonic()
            self.round()
            self.learn_cost(time.monotonic() - begun)
            left = self.alive.bit_count()
            tell(f"round {self.round_number}: {left} of {len(self.asker.mutants)} survivors are left")

    def may_go_on(self) -> bool:
        if self.most is not None:
            return self.round_number < self.most
        return self.clock.has(1.3 * self.cost, SHARE)

    def learn_cost(self, seconds: float) -> None:
        """Gives the next round as many rows as fit its share of the time that is left."""
        self.cost, left = seconds, self.clock.left(SHARE)
        if left is not None:
            fitting = int(self.size * left / OF_ROUND / max(seconds, 1e-9))
            size = max(LEAST_SIZE, min(SIZE, fitting, GROWTH * self.size))
            self.size, self.cost = size, seconds * size / self.size

    def far_share(self) -> float:
        first, later, last = FAR_SHARES
        if self.shape.keeps.is_near:
            return 0.0
        return first if self.round_number <= FIRST_ROUNDS else later if self.dry < SOME_DRY else last

    def proposed(self) -> Row | None:
        """A row that was not tried yet; None where the proposed rows can not be used."""
        is_far, chance = self.chance.random() < self.far_share(), self.chance
        parent, partner = chance.choice(self.elite), chance.choice(self.elite)
        is_anew = chance.random() < ANEW_SHARES[self.round_number > FIRST_ROUNDS]
        row = self.shape.kept(self.rows.anew(parent, is_far) if is_anew else self.rows.child(parent, partner, is_far))
        return None if row is None or row in self.known else row

    def made(self) -> list[Row]:
        """The rows of a round."""
        rows = self.at_borders()
        self.known.update(rows)
        for proposal in range(PROPOSALS * self.size):
            row = self.proposed()
            is_early = proposal < PROPOSALS * self.size // 2
            if row is None or is_early and self.experience.is_hopeless(row) and self.chance.random() > HOPE:
                continue
            self.known.add(row)
            rows.append(row)
            if len(rows) >= self.size:
                break
        return rows

    def at_borders(self) -> list[Row]:
        """Rows between rows that kill different mutants, in every other round; none in the others and in the first."""
        if self.round_number <= FIRST_ROUNDS or self.round_number % 2:
            return []
        # The tests kill no survivor.
        self.borders.begin(self.alive, {**dict.fromkeys(self.suite, 0), **self.exact})
        return self.borders.rows(self.known, self.size // 2)

    def ops(self) -> list[str]:
        """The operators that are run: those with survivors at the start, or for large programs those that have some
        now."""
        all_ops = self.asker.ops_of(self.asker.whole)
        mutants = sum(self.asker.checked.whole.counts[op].total for op in all_ops)
        return self.asker.ops_of(self.alive) if mutants * self.steps > LARGE else all_ops

    def round(self) -> None:
        self.round_number += 1
        before = self.alive
        self.borders.learn(self.run(self.made()))
        if self.alive != before:
            self.last_round = self.round_number
        self.dry = self.round_number - self.last_round

    def run(self, rows: Sequence[Row]) -> dict[Row, int]:
        """Runs rows. The result are those on which the program ends within the limit of the search."""
        kills = self.asker.kills(self.asker.ending(rows, self.steps), self.ops(), self.steps)
        self.experience.learn(rows, kills)
        self.failed += len(rows) - len(kills)
        self.tried += kills
        self.seen.update((row, mask) for row, mask in kills.items() if mask)
        self.settle([row for row, mask in kills.items() if mask & self.alive])
        return kills

    def settle(self, rows: Sequence[Row]) -> int:
        """Runs rows at the limit that is asked for, since a kill under a lower limit may be none under that. The result
        is on how many of them the program ends."""
        exact = self.asker.kills(rows, self.asker.ops_of(self.asker.whole), self.asker.steps) if rows else {}
        for row, mask in exact.items():
            self.seen[row] = self.exact[row] = mask
            if mask & self.alive:
                self.elite.append(row)
                self.alive &= ~mask
        return len(exact)

    def take(self, rows: Sequence[Row]) -> None:
        """Runs rows that were not made by chance, where it has to be at the limit that is asked for."""
        self.known.update(rows)
        ended = self.run(rows)
        self.failed -= self.settle(self.asker.ending([row for row in rows if row not in ended], self.asker.steps))
