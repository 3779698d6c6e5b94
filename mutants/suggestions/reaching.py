"""How many of the rows that were tried come to the lines of survivors, asked of the program."""

import time
from collections.abc import Collection, Mapping

from mutants.checks.coverage import known_bits
from mutants.checks.running import Means
from mutants.suggestions.asking import MOST_STEPS
from mutants.suggestions.rounds import SIZE, Search
from mutants.suggestions.shapes import test_of
from mutants.texts.jobs import Job

# How many rows are asked about at once: at first, and later.
FIRST, AT_ONCE = SIZE, 8 * SIZE
# How many times as many steps a run may take with 1-0 in its statements.
TIMES = 4


class Reached:
    """How many rows were asked about, and how many of them come to each line. Lines of which this is not known are left
    out."""

    def __init__(self) -> None:
        self.asked = 0
        self.by_line: dict[int, int] = {}

    def add(self, rows: int, bits: Mapping[int, str]) -> None:
        self.asked += rows
        for line, digits in bits.items():
            self.by_line[line] = self.by_line.get(line, 0) + digits.count("1")


def reached_of(search: Search, lines: Collection[int], means: Means, name: str) -> Reached:
    """Asks about as many rows as there is time for. The program ends on each of them within the steps of the search."""
    reached, at, size, cost = Reached(), 0, FIRST, 0.0
    few_steps = means._replace(steps=str(min(MOST_STEPS, TIMES * search.steps)))
    while lines and at < len(search.tried) and search.clock.has(cost):
        begun = time.monotonic()
        part = list(map(test_of, search.tried[at : at + size]))
        start = search.asker.checked
        asked = start._replace(job=Job(start.job.source, part), whole=start.whole._replace(counts={}))
        bits = known_bits(asked, lines, few_steps, name)
        reached.add(len(part), {line: bits[line] for line in lines if line in bits})
        cost = (time.monotonic() - begun) * AT_ONCE / size
        at, size = at + size, AT_ONCE
    return reached
