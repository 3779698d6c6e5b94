"""Few rows that kill as much as many do: a smallest set, as on the pages of a suite, of rows that are as cheap as can
be."""

from collections.abc import Callable, Iterable, Mapping, Sequence

from mutants.pages.cover import columns_of, smallest_set
from mutants.suggestions.shapes import Row
from mutants.texts.subsuming import least_sets

# The most branches of the search for a smallest set; after these the greedy rule chooses.
BRANCHES = 300
Cost = Callable[[Row], int]
# A set of mutants, and the cheapest row that kills just these.
Kinds = dict[int, Row]


def union_of(masks: Iterable[int]) -> int:
    union = 0
    for mask in masks:
        union |= mask
    return union


def kinds_of(pairs: Iterable[tuple[int, Row]], wanted: int, cost: Cost) -> Kinds:
    """For each set of wanted mutants that a row kills, the cheapest row that kills this set; the largest sets first."""
    kinds: Kinds = {}
    for mask, row in pairs:
        mask &= wanted
        if mask and (mask not in kinds or (cost(row), row) < (cost(kinds[mask]), kinds[mask])):
            kinds[mask] = row
    return dict(sorted(kinds.items(), key=lambda pair: (-pair[0].bit_count(), cost(pair[1]), pair[1])))


def deciding(kinds: Kinds) -> int:
    """The mutants that matter: rows that kill all of them kill the others too."""
    killers = columns_of(kinds)
    least = set(least_sets(killers.values()))
    bits = 0
    for number, places in sorted(killers.items()):
        if places in least:
            least.discard(places)
            bits |= 1 << number
    return bits


def few_rows(wanted: int, kills: Mapping[Row, int], cost: Cost) -> list[Row]:
    """Few rows that kill all of the wanted mutants that any of these rows kill."""
    kinds = kinds_of(((mask, row) for row, mask in kills.items()), wanted, cost)
    kinds = kinds_of(kinds.items(), deciding(kinds), cost)
    rows = list(kinds.values())
    places, _ = smallest_set(columns_of(kinds).values(), BRANCHES)
    chosen = without_needless([rows[place] for place in places], wanted, kills, cost)
    return cheaper(chosen, wanted, kills, cost)


def needed_of(row: Row, chosen: Sequence[Row], wanted: int, kills: Mapping[Row, int]) -> int:
    """The wanted mutants that a row kills and no other chosen row does."""
    return kills[row] & wanted & ~union_of(kills[other] for other in chosen if other != row)


def without_needless(chosen: Sequence[Row], wanted: int, kills: Mapping[Row, int], cost: Cost) -> list[Row]:
    """The chosen rows without those that kill nothing alone, the dearest first."""
    kept = list(chosen)
    for row in sorted(chosen, key=lambda row: (-cost(row), row)):
        if not needed_of(row, kept, wanted, kills):
            kept.remove(row)
    return kept


def cheaper(chosen: Sequence[Row], wanted: int, kills: Mapping[Row, int], cost: Cost) -> list[Row]:
    """The chosen rows, each changed for the cheapest one that kills what it alone kills."""
    kept = list(chosen)
    by_cost = sorted(kills, key=lambda row: (cost(row), row))
    for place, row in enumerate(kept):
        needed = needed_of(row, kept, wanted, kills)
        kept[place] = next(other for other in by_cost if kills[other] & needed == needed)
    return kept
