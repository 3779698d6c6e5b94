"""The kill matrix as a table: a row for each set of tests that kills some mutants and no other test does."""

from collections.abc import Iterable, Sequence
from itertools import groupby

from mutants.english import plural
from mutants.pages.frame import Cell, table
from mutants.texts.ranges import rows_of
from mutants.texts.reports import Row, tests_in


def ranges_of(numbers: Iterable[int]) -> str:
    """Numbers in ascending order in few words: 1, 3-9, 12."""
    return ", ".join("-".join(map(str, row)) for row in rows_of(numbers))


def killers_text(bits: str) -> str:
    """The tests that kill, or where that is shorter the tests that do not."""
    if "1" not in bits or "0" not in bits:
        return "all tests" if "1" in bits else "no test"
    killers, rest = ranges_of(tests_in(bits)), f"all but {ranges_of(tests_in(bits, '0'))}"
    return killers if bits.count("1") <= len(bits) / 2 else rest


def names_of(rows: Iterable[Row]) -> str:
    """Mutants by their operators, with their numbers."""
    groups = groupby(rows, key=lambda row: row.op)
    return "; ".join(f"{op} {ranges_of(row.place for row in alike)}" for op, alike in groups)


def kill_sets(rows: Iterable[Row]) -> list[tuple[str, list[Row]]]:
    """The mutants that have the same killers, those with the fewest killers first."""
    by_bits: dict[str, list[Row]] = {}
    for row in rows:
        by_bits.setdefault(row.bits, []).append(row)
    return sorted(by_bits.items(), key=lambda pair: pair[0].count("1"))


def kill_sets_part(rows: Sequence[Row]) -> str:
    """The table, folded."""
    shown = kill_sets(rows)
    cells: list[list[Cell]] = [[("", killers_text(bits)), ("", names_of(alike))] for bits, alike in shown]
    head: list[Cell] = [("", "Killed by"), ("", "Mutants")]
    summary = f"The same as a table: {plural(len(shown), 'set')} of tests, each with what just these tests kill"
    inner = table(head, cells, label="Which tests kill which mutants")
    return f"<details><summary>{summary}</summary>\n{inner}</details>\n"
