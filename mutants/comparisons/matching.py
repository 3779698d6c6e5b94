"""Which mutants and which tests of two states are the same.

Where the statements are known, a mutant is found by the text of its statement and by what it makes of that. Statements
are matched in their order, and statements that were moved by their texts, so the numbers and lines of mutants do not
matter. Else both states need the same mutants, which are matched by number.
"""

from collections import defaultdict
from collections.abc import Callable, Hashable, Iterable, Mapping, Sequence
from difflib import SequenceMatcher
from typing import NamedTuple, TypeVar

from mutants.comparisons.states import State, Verdict
from mutants.texts.twins import name_of

Item = TypeVar("Item")
Pair = tuple[Verdict, Verdict]


class Matched(NamedTuple):
    """Pairs of the same mutant; mutants of the old state alone; of the new one alone; and how they were matched."""

    pairs: list[Pair]
    gone: list[Verdict]
    added: list[Verdict]
    how: str


def places_matched(olds: Sequence[str], news: Sequence[str]) -> dict[int, int]:
    """For places of old texts those of new ones: in order as far as there is one, and then text by text."""
    blocks = SequenceMatcher(None, olds, news, autojunk=False).get_matching_blocks()
    new_places = {block.a + step: block.b + step for block in blocks for step in range(block.size)}
    taken, left = set(new_places.values()), defaultdict(list)
    for place, text in enumerate(news):
        if place not in taken:
            left[text].append(place)
    for place, text in enumerate(olds):
        if place not in new_places and left[text]:
            new_places[place] = left[text].pop(0)
    return new_places


def lines_matched(olds: Mapping[int, str], news: Mapping[int, str]) -> dict[int, int]:
    """For lines of old statements those of the same statements now."""
    old_lines, new_lines = sorted(olds), sorted(news)
    places = places_matched([olds[line] for line in old_lines], [news[line] for line in new_lines])
    return {old_lines[place]: new_lines[other] for place, other in places.items()}


def paired(
    olds: Iterable[Item], news: Iterable[Item], key: Callable[[Item], Hashable], old_key: Callable[[Item], Hashable]
) -> tuple[list[tuple[Item, Item]], list[Item], list[Item]]:
    """Pairs of items with the same key, in the order of the new ones, and what is left of both; each is taken once."""
    waiting: dict[Hashable, list[Item]] = defaultdict(list)
    for item in olds:
        waiting[old_key(item)].append(item)
    pairs, added = [], []
    for item in news:
        alike = waiting[key(item)]
        if alike:
            pairs.append((alike.pop(0), item))
        else:
            added.append(item)
    return pairs, [item for alike in waiting.values() for item in alike], added


def by_text(old: State, new: State) -> Matched:
    """The mutants matched by the texts of statement and change."""
    lines = lines_matched(old.statements, new.statements)

    def key(verdict: Verdict) -> Hashable:
        return verdict.mutant.op, verdict.mutant.line, verdict.mutant.text

    def old_key(verdict: Verdict) -> Hashable:
        # A line that is no more is none of the new ones.
        return verdict.mutant.op, lines.get(verdict.mutant.line, -verdict.mutant.line), verdict.mutant.text

    how = "by the text of the statement and of the change"
    return Matched(*paired(old.verdicts, new.verdicts, key, old_key), how)


def assert_same_lists(old: State, new: State) -> None:
    """Refuses two states that do not have the same mutants, as far as their reports show it."""
    refusal = "the reports are not of the same mutants"
    advice = "; reports have no texts of killed mutants. Give the jobs (--jobs OLD.json NEW.json), or files of --json"
    if (old.unit, old.every) != (new.unit, new.every):
        raise ValueError(f"the reports are not of one unit and one choice of mutants{advice}")
    counts = [[sum(each.mutant.op == op for each in state.verdicts) for op in old.ops] for state in (old, new)]
    for op, one, other in zip(old.ops, *counts):
        if one != other:
            raise ValueError(f"{refusal}: {op} has {one}, and then {other}{advice}")
    for one_verdict, other_verdict in zip(old.verdicts, new.verdicts):
        texts = one_verdict.mutant.text, other_verdict.mutant.text
        if all(texts) and texts[0] != texts[1]:
            name = name_of(one_verdict.mutant)
            raise ValueError(f"{refusal}: {name} is {texts[0]}, and then {texts[1]}{advice}")


def by_number(old: State, new: State) -> Matched:
    """The mutants matched by number, where the lists are the same. A text that either state has is taken."""
    assert_same_lists(old, new)
    pairs = []
    for one, other in zip(old.verdicts, new.verdicts):
        mutant = other.mutant if other.mutant.text else one.mutant
        pairs.append((one._replace(mutant=mutant), other._replace(mutant=mutant)))
    return Matched(pairs, [], [], "by number, as reports have no texts of killed mutants")


def matched(old: State, new: State) -> Matched:
    """The mutants of two states that have the same operators."""
    return by_text(old, new) if old.statements and new.statements else by_number(old, new)


def tests_matched(olds: Sequence[str], news: Sequence[str]) -> list[tuple[int, int]]:
    """The numbers, from 1, of the tests with the same values, each taken once."""
    return [(place + 1, other + 1) for place, other in sorted(places_matched(olds, news).items())]
