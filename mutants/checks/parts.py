"""The parts of a job, each a batch of its tests with a group of its operators; and their reports as one."""

from collections.abc import Mapping, Sequence
from itertools import product
from typing import NamedTuple

from mutants.texts.joining import joined_batches, joined_operators
from mutants.texts.reports import Report

# A group has at least this many mutants, so that a part is worth a call.
LEAST = 40
# The parts for each processor, where a job is long: with several, no processor waits long for the last part.
SHARE = 8


class Part(NamedTuple):
    """A batch and a group, by their places, and the number of runs of mutants in them."""

    batch: int
    group: int
    runs: int


def group_size(totals: Mapping[str, int], batches: int, at_once: int) -> int:
    """How many mutants a group should have, so that there are parts for all processors."""
    return max(LEAST, sum(totals.values()) * batches // (SHARE * at_once))


def parts_of(totals: Mapping[str, int], groups: Sequence[Sequence[str]], sizes: Sequence[int]) -> list[Part]:
    """All parts of a job whose batches have these numbers of tests, the longest first."""
    mutants = [sum(totals[op] for op in group) for group in groups]
    pairs = product(enumerate(sizes), enumerate(mutants))
    parts = [Part(batch, group, count * max(size, 1)) for (batch, size), (group, count) in pairs]
    return sorted(parts, key=lambda part: (-part.runs, part))


def whole_report(reports: Mapping[tuple[int, int], Report]) -> Report:
    """The report of the whole job, from the reports of its parts, by batch and group."""
    groups = sorted({group for _, group in reports})
    count = len({batch for batch, _ in reports})
    return joined_operators([joined_batches([reports[batch, group] for batch in range(count)]) for group in groups])
