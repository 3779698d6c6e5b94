"""What each test of a suite adds: how many mutants it kills, how many it alone, and the smallest set of tests."""

import json
from collections.abc import Iterable, Mapping, Sequence

from mutants.english import joined_words, plural
from mutants.pages.cover import smallest_set
from mutants.pages.frame import Cell, bar, numbers, table, text
from mutants.texts.reports import Row
from mutants.texts.twins import names_text

# How many characters of a test's values are shown, how many numbers of tests in a sentence, how many mutants of a test.
LONGEST, NUMBERS, NAMED = 72, 20, 4


def killers_of(bits: str) -> int:
    """The tests that kill a mutant as a number: bit 0 is the first test."""
    return int(bits[::-1] or "0", 2)


def kills_of(rows: Sequence[Row], tests: int) -> list[int]:
    """How many mutants each test kills."""
    return [column.count("1") for column in zip(*(row.bits for row in rows))] or [0] * tests


def alone_of(rows: Iterable[Row], tests: int) -> list[int]:
    """How many mutants each test kills that no other test kills."""
    return list(map(len, alone_by_test(rows, tests)))


def shortened(whole: str) -> str:
    return whole if len(whole) <= LONGEST else whole[: LONGEST - 2] + " .."


def values_of(test: object) -> str:
    return shortened(json.dumps(test, ensure_ascii=False))


def least_set_text(kept: Sequence[int], is_least: bool, killed: int, noun: str = "suite") -> str:
    """One sentence on the smallest set of tests; the words say whether it is known to be smallest."""
    if not kept:
        return f"The {noun} kills no mutant"
    if is_least:
        return f"The smallest set that kills all {killed} that the {noun} kills has {plural(len(kept), 'test')}"
    sentence = f"A set of {plural(len(kept), 'test')} kills all {killed} that the {noun} kills"
    return f"{sentence}, by the greedy rule; the search for a smallest one was given up, and a smaller one may be there"


def needless_text(alone: Iterable[int]) -> str:
    """One sentence on the tests that kill nothing which no other test kills."""
    numbers = [number for number, count in enumerate(alone, 1) if not count]
    if not numbers:
        return "Each test kills a mutant that no other test kills."
    if len(numbers) == 1:
        return f"Test {numbers[0]} kills nothing that others do not: it may be left out."
    rest = "each may be left out by itself, but not all at once where they share kills"
    which = f"Tests {joined_words(numbers)}" if len(numbers) <= NUMBERS else f"{len(numbers)} of the tests"
    return f"{which} kill nothing that others do not: {rest}."


def remarks_on(rows: Sequence[Row], alone: Sequence[int]) -> str:
    """What the numbers say of the suite, in two sentences."""
    kept, is_least = smallest_set([killers_of(row.bits) for row in rows])
    least = least_set_text(kept, is_least, sum("1" in row.bits for row in rows))
    which = f": {joined_words(place + 1 for place in kept)}" if 0 < len(kept) < len(alone) else ""
    return f"<p>{needless_text(alone)} {least}{which}.</p>\n"


def outcome_cell(outcome: str, expected: str | None) -> Cell:
    """What the program itself does on a test, and what is expected where that is something else."""
    code = f"<code>{text(shortened(outcome))}</code>"
    return "", code if expected is None else f'{code} <span class="live">expected {text(shortened(expected))}</span>'


def alone_by_test(rows: Iterable[Row], tests: int) -> list[list[Row]]:
    """The mutants that each test kills and no other test does."""
    alone: list[list[Row]] = [[] for _ in range(tests)]
    for row in rows:
        if row.bits.count("1") == 1:
            alone[row.bits.index("1")].append(row)
    return alone


def alone_text(alone: Sequence[Row]) -> str:
    """The first few mutants that a test alone kills, by name."""
    rest = f" and {len(alone) - NAMED} more" if len(alone) > NAMED else ""
    return names_text(alone[:NAMED]) + rest


def titled(test: object, number: int, titles: Sequence[str]) -> str:
    """The values of a test, with its name where it has one."""
    title = titles[number - 1] if number <= len(titles) else ""
    return f"{shortened(title)}: {values_of(test)}" if title else values_of(test)


def test_cells(number: int, values: str, kills: int, alone: Sequence[Row], mutants: int) -> list[Cell]:
    many = numbers(kills, f"<b>{len(alone)}</b>" if alone else "none")
    rest: list[Cell] = [("", text(alone_text(alone))), ("bar", bar(kills, mutants))]
    return [("n", number), ("", f"<code>{text(values)}</code>"), *many, *rest]


HEAD: list[Cell] = [
    ("n", "Test"), ("", "Values"), ("n", "Kills"), ("n", "It alone"), ("", "Which"), ("bar", "Share of all mutants"),
]  # fmt: skip


def tests_part(
    suite: Sequence[object],
    rows: Sequence[Row],
    outcomes: Sequence[str] = (),
    unexpected: Mapping[int, str] = {},
    titles: Sequence[str] = (),
) -> str:
    """The table of the tests of a suite, first those that alone kill the most, and what follows from it.

    The outcomes are those of the program, where known.
    """
    if not suite:
        return "<p>The suite has no test.</p>\n"
    kills, alone = kills_of(rows, len(suite)), alone_by_test(rows, len(suite))
    head, shown = [*HEAD], []
    for place in sorted(range(len(suite)), key=lambda place: (-len(alone[place]), -kills[place], place)):
        values = titled(suite[place], place + 1, titles)
        cells = test_cells(place + 1, values, kills[place], alone[place], len(rows))
        if outcomes:
            cells.insert(2, outcome_cell(outcomes[place], unexpected.get(place + 1)))
        shown.append(cells)
    if outcomes:
        head.insert(2, ("", "The program"))
    return remarks_on(rows, alone_of(rows, len(suite))) + table(head, shown, label="The tests", does_sort=True)
