"""Which mutants are asked about: those of some operators, of some lines, or
of the statements that differ from another version."""

import re
from collections.abc import Collection, Iterable, Mapping, Sequence
from difflib import SequenceMatcher
from typing import NamedTuple

from mutants.english import plural
from mutants.texts.cards import Card, cards_of
from mutants.texts.lines import Mutant
from mutants.texts.reports import Report, counted

RANGE = re.compile(r"(\d{1,9})(?:\s*-\s*(\d{1,9}))?")


class Choice(NamedTuple):
    """The mutants that are asked about, and in words what was left out, and why."""

    listed: list[Mutant]
    left_out: list[str]


def ranges_in(text: str) -> list[tuple[int, int]]:
    """The ranges of lines in a text such as 10-20,25."""
    ranges = []
    for word in text.split(","):
        match = RANGE.fullmatch(word.strip())
        if not match:
            raise ValueError(f"{word.strip()!r} is no line and no range of lines, as 10-20")
        first, last = int(match[1]), int(match[2] or match[1])
        if not 0 < first <= last:
            raise ValueError(f"{word.strip()!r} has no line: a range is from its first line to its last, from 1")
        ranges.append((first, last))
    return ranges


def is_within(card: Card, ranges: Iterable[tuple[int, int]]) -> bool:
    """Whether a line of the statement lies in one of the ranges: its initial line, or one that continues it."""
    end = max([card.line, *(line for line, _ in card.places)])
    return any(first <= end and card.line <= last for first, last in ranges)


def lines_within(source: str, ranges: Sequence[tuple[int, int]]) -> set[int]:
    """The initial lines of the statements that have a line in these ranges."""
    return {card.line for card in cards_of(source) if is_within(card, ranges)}


def statement_keys(source: str, printed: Sequence[str]) -> list[tuple[str, str]]:
    """The label and the printed text of each statement of a source."""
    return [(card.label.lstrip("0"), statement) for card, statement in zip(cards_of(source), printed)]


def lines_changed(source: str, printed: Sequence[str], old_source: str, old_printed: Sequence[str]) -> set[int]:
    """The initial lines of the statements that the old program does not have, or not in this order."""
    olds, news = statement_keys(old_source, old_printed), statement_keys(source, printed)
    same = SequenceMatcher(None, olds, news, autojunk=False).get_matching_blocks()
    kept = {place for block in same for place in range(block.b, block.b + block.size)}
    return {card.line for place, card in enumerate(cards_of(source)) if place not in kept}


def choose(choice: Choice, lines: Collection[int], why: str) -> Choice:
    """Those of the mutants that are on these lines."""
    kept = [mutant for mutant in choice.listed if mutant.line in lines]
    rest = len(choice.listed) - len(kept)
    return Choice(kept, [*choice.left_out, *([f"{plural(rest, 'mutant')} {why}"] if rest else [])])


def totals_of(totals: Mapping[str, int], listed: Iterable[Mutant]) -> dict[str, int]:
    """The operators that have to be run for these mutants, and how many mutants each of them has."""
    wanted = {mutant.op for mutant in listed}
    return {op: total for op, total in totals.items() if op in wanted}


def restricted(report: Report, listed: Sequence[Mutant]) -> Report:
    """The report, with only these mutants of it."""
    kept = {mutant[:3] for mutant in listed}
    rows = [row for row in report.rows if row[:3] in kept]
    alive = [mutant for mutant in report.survivors if mutant[:3] in kept]
    return report._replace(counts=counted(rows, report.counts), rows=rows, survivors=alive)
