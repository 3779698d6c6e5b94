"""Which mutants matter: one subsumes another where each test that kills it kills the other (Ammann, Delamaro and
Offutt 2014). The smallest set that subsumes all mutants has one of each set of killers that has no other one within.

No test shows what a survivor subsumes, so all survivors are in the set, each program once.
"""

from collections.abc import Iterable, Sequence
from typing import NamedTuple

from mutants.texts.lines import Mutant
from mutants.texts.reports import Count, Row, score_of, with_status
from mutants.texts.twins import twins_in


class Subsuming(NamedTuple):
    """The killed mutants of the set, each the first of those with the same killers, and how many survivors it has."""

    killed: list[Mutant]
    survivors: int

    @property
    def counted(self) -> Count:
        return Count(len(self.killed) + self.survivors, len(self.killed), 0)

    def text(self) -> str:
        """The score over the set."""
        count = self.counted
        score = f"{score_of(count)} %: {count.killed} of {count.total} mutants killed"
        return f"Where each mutant is left out that is killed whenever another is, it is {score}."


def least_sets(masks: Iterable[int]) -> list[int]:
    """Those of some sets, as bits, that have no other one within."""
    least: list[int] = []
    for mask in sorted(set(masks), key=lambda mask: (mask.bit_count(), mask)):
        if not any(each & mask == each for each in least):
            least.append(mask)
    return least


def subsuming(listed: Sequence[Mutant], rows: Sequence[Row]) -> Subsuming:
    """The smallest set that subsumes all mutants that count."""
    first: dict[int, Mutant] = {}
    for mutant, row in zip(listed, rows):
        if row.status in "KW":
            first.setdefault(int(row.bits[::-1], 2), mutant)
    least = set(least_sets(first))
    killed = [mutant for mask, mutant in first.items() if mask in least]
    return Subsuming(killed, len(twins_in(with_status(listed, rows, "S"))))
