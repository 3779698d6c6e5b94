"""Reports: what `mothra run` writes, read as a value."""

import re
from collections import Counter
from collections.abc import Iterable, Sequence
from typing import NamedTuple, TypeVar

from mutants.texts.lines import NUMBER, Mutant, Named, assert_numbered, lines_of_text, mutant_of

VERSION = "REPORT 2"
Key = TypeVar("Key", str, int)


class Row(NamedTuple):
    """What a report says of a mutant: its status K, S, E or W, and in its bits 1 or 0 for each test."""

    op: str
    number: int
    place: int
    status: str
    bits: str


class Count(NamedTuple):
    """Counts of an operator, or of all: how many mutants, how many killed, how many declared equivalent that
    survived."""

    total: int
    killed: int
    equivalent: int

    @property
    def wanted(self) -> int:
        """The mutants that a suite has to kill."""
        return self.total - self.equivalent

    @property
    def survived(self) -> int:
        return self.wanted - self.killed


class Report(NamedTuple):
    unit: str
    tests: int
    steps: int
    every: int
    counts: dict[str, Count]
    rows: list[Row]
    survivors: list[Mutant]


ROW = re.compile(rf"MUTANT ([A-Z]{{3}}) {NUMBER} {NUMBER} ([KSEW]) ([01]+|-)")
COUNTS = re.compile(rf"([A-Z]{{3}}) {NUMBER} {NUMBER} {NUMBER}")


def read_head(lines: Sequence[str]) -> dict[str, str]:
    """The numbers and names at the front of a report, by their words."""
    head = dict(line.partition(" ")[::2] for line in lines[1:5])
    if lines[0] != VERSION or list(head) != ["UNIT", "TESTS", "STEPS", "EVERY"]:
        raise ValueError(f"it is no report of mothra run with the first line {VERSION}")
    if not all(head[key].isdecimal() for key in ("TESTS", "STEPS", "EVERY")):
        raise ValueError("the report has a line TESTS, STEPS or EVERY without a number")
    return head


def read_report(text: str) -> Report:
    """Reads a report, and refuses it unless its lines agree with each other."""
    lines = lines_of_text(text, "the report")
    head = read_head(lines)
    if lines[-1] != "END":
        raise ValueError("the report is cut short: its last line is not END")
    at = next((at for at, line in enumerate(lines) if line.startswith("TOTAL ")), 5)
    counts = {match[1]: Count(*map(int, match.groups()[1:])) for match in matches(COUNTS, lines[5:at])}
    verdicts = [line for line in lines[at + 2 : -1] if line.startswith("MUTANT ")]
    rows = [row_of(*match.groups()) for match in matches(ROW, verdicts)]
    rest = lines[at + 2 + len(rows) : -1]
    tests, steps, every = (int(head[key]) for key in ("TESTS", "STEPS", "EVERY"))
    report = Report(head["UNIT"], tests, steps, every, counts, rows, survivors(rest))
    assert_agrees(report, lines[at : at + 2], rest)
    return report


def matches(pattern: re.Pattern[str], lines: Iterable[str]) -> list[re.Match[str]]:
    """The matches of the lines with a pattern, which each of them has to match."""
    matched = [pattern.fullmatch(line) for line in lines]
    if not all(matched):
        raise ValueError("the report has a line that is none")
    return [match for match in matched if match]


def row_of(op: str, number: str, place: str, status: str, bits: str) -> Row:
    return Row(op, int(number), int(place), status, bits.strip("-"))


def survivors(lines: Iterable[str]) -> list[Mutant]:
    named = [mutant_of(line.removeprefix("SURVIVOR ")) for line in lines if line.startswith("SURVIVOR ")]
    if not all(named):
        raise ValueError("the report has a line SURVIVOR that is none")
    return [mutant for mutant in named if mutant]


def assert_agrees(report: Report, sums: list[str], rest: list[str]) -> None:
    """Refuses a report unless its counts, rows, survivors, wrong declarations and score agree."""
    assert_numbered(report.rows, {op: count.total for op, count in report.counts.items()}, "the report")
    if any(len(row.bits) != report.tests or ("1" in row.bits) != (row.status in "KW") for row in report.rows):
        raise ValueError("the report has a row whose digits do not agree with its tests or its status")
    if counted(report.rows, report.counts) != report.counts or sums != sum_lines(report.counts.values()):
        raise ValueError("the report has counts or a score that are not those of its rows")
    wanted = [f"SURVIVOR {name_of(row)}" for row in report.rows if row.status == "S"]
    wanted += [f"WRONG {name_of(row)}" for row in report.rows if row.status == "W"]
    if [line.partition(" LINE ")[0] for line in rest] != wanted:
        raise ValueError("the report is cut short or mixed: its last lines are not those of its rows")


def tests_in(bits: str, digit: str = "1") -> list[int]:
    """The numbers of the tests that have a digit: those that kill."""
    return [number for number, bit in enumerate(bits, 1) if bit == digit]


def name_of(mutant: Named) -> str:
    return f"{mutant.op} {mutant.number} {mutant.place}"


def counts_by(statuses: Iterable[tuple[Key, str]], keys: Iterable[Key]) -> dict[Key, Count]:
    """For each key, how many statuses belong to it, how many of these are of killed mutants, and how many of declared
    ones that survived."""
    count = Counter(statuses)
    return {
        key: Count(sum(count[key, status] for status in "KSEW"), count[key, "K"] + count[key, "W"], count[key, "E"])
        for key in keys
    }


def counted(rows: Iterable[Row], ops: Iterable[str]) -> dict[str, Count]:
    """The counts of each of these operators, by the rows."""
    return counts_by(((row.op, row.status) for row in rows), ops)


def summed(counts: Iterable[Count]) -> Count:
    """The sum of counts; there may be none."""
    return Count(*map(sum, zip(Count(0, 0, 0), *counts)))


def score_of(count: Count) -> str:
    """The score as the report writes it."""
    if count.wanted == 0:
        return "NONE"
    hundredths = count.killed * 10000 // count.wanted
    return f"{hundredths // 100}.{hundredths % 100:02}"


def sum_lines(counts: Iterable[Count]) -> list[str]:
    total = summed(counts)
    return [f"TOTAL {total.total} {total.killed} {total.equivalent}", f"SCORE {score_of(total)}"]


def with_status(listed: Iterable[Mutant], rows: Iterable[Row], status: str) -> list[Mutant]:
    """The mutants whose rows have this status."""
    return [mutant for mutant, row in zip(listed, rows) if row.status == status]


def assert_same_mutants(listed: Sequence[Mutant], report: Report) -> None:
    """Refuses a list and a report unless they are of the same mutants and say the same of the survivors."""
    same = [mutant[:3] for mutant in listed] == [row[:3] for row in report.rows]
    if not same or report.survivors != with_status(listed, report.rows, "S"):
        raise ValueError("the list and the report are not of the same mutants")
