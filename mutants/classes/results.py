"""The class: what the results of all jobs of one program say together."""

import json
from collections.abc import Iterable, Mapping, Sequence
from typing import Any, NamedTuple

from mutants.english import first_words, plural
from mutants.pages.cover import smallest_set
from mutants.texts.lines import Mutant
from mutants.texts.reports import Count, Report, Row, score_of, summed


# So many names of jobs that failed are listed.
MOST = 5
# What stands in the place of the code of a fault where there is none.
NO_CODE = "-"


class Reported(NamedTuple):
    """A suite that has a report."""

    name: str
    suite: list[Any]
    report: Report


class Result(NamedTuple):
    """The result of a job: a report, or in words why there is none, with the code of its fault; and the number of tests
    on which the program does not do what its table expects."""

    name: str
    program: str
    suite: list[Any]
    report: Report | None
    refusal: str = ""
    code: str = NO_CODE
    unexpected: int = 0


class ClassTest(NamedTuple):
    """A test of the class: its values, the names of those who have it, and how many mutants it kills, and it alone."""

    values: Any
    names: list[str]
    kills: int
    alone: int


class Class(NamedTuple):
    """Tests, the rows of the mutants with the tests that kill each as bits,
    and those that the set of fewest tests has."""

    tests: list[ClassTest]
    rows: list[Row]
    killers: list[int]
    least: list[int]
    is_least: bool


def reported_of(results: Iterable[Result]) -> list[Reported]:
    return [Reported(each.name, each.suite, each.report) for each in results if each.report is not None]


def failed_text(results: Sequence[Result]) -> str:
    """How many jobs failed, and which; no text where none did."""
    names = [each.name for each in results if each.report is None]
    return f"{len(names)} of {plural(len(results), 'job')} failed: {first_words(names, MOST)}" if names else ""


def test_places(results: Sequence[Reported]) -> tuple[dict[str, int], list[list[str]]]:
    """The different tests of the class by their values, each with its place and the names of those who have it."""
    places: dict[str, int] = {}
    names: list[list[str]] = []
    for result in results:
        for test in result.suite:
            key = json.dumps(test)
            if key not in places:
                places[key] = len(places)
                names.append([])
            if result.name not in names[places[key]]:
                names[places[key]].append(result.name)
    return places, names


def killed_by(row: Row, masks: Iterable[int]) -> int:
    """The tests that kill a mutant, as bits; `masks` has the bit of each test of its suite."""
    tests = 0
    for mask, bit in zip(masks, row.bits):
        tests |= mask if bit == "1" else 0
    return tests


def killers_of(results: Sequence[Reported], places: Mapping[str, int]) -> list[int]:
    """For each mutant the tests of the class that kill it, as bits."""
    killers = [0] * len(results[0].report.rows)
    for result in results:
        masks = [1 << places[json.dumps(test)] for test in result.suite]
        for at, row in enumerate(result.report.rows):
            killers[at] |= killed_by(row, masks)
    return killers


def class_of(results: Sequence[Reported]) -> Class:
    """The class of results that have reports, all of one program."""
    mutants = {tuple(row[:3] for row in result.report.rows) for result in results}
    if len(mutants) != 1:
        raise ValueError("the reports of one program have not the same mutants: take the folder out away")
    places, names = test_places(results)
    killers = killers_of(results, places)
    kills = [sum(mask >> place & 1 for mask in killers) for place in range(len(places))]
    alone = [killers.count(1 << place) for place in range(len(places))]
    tests = [ClassTest(json.loads(key), names[place], kills[place], alone[place]) for key, place in places.items()]
    least, is_least = smallest_set(killers)
    return Class(tests, results[0].report.rows, killers, least, is_least)


def class_count(whole: Class) -> Count:
    """The mutants that some suite kills; a declared one counts where no suite does."""
    killed = sum(mask != 0 for mask in whole.killers)
    declared = sum(not mask and row.status == "E" for mask, row in zip(whole.killers, whole.rows))
    return Count(len(whole.rows), killed, declared)


def survivors_in_common(whole: Class, results: Sequence[Reported]) -> list[Mutant]:
    """The survivors that no suite of the class kills."""
    alive = {row[:3] for row, mask in zip(whole.rows, whole.killers) if not mask}
    return [mutant for mutant in results[0].report.survivors if mutant[:3] in alive]


def only_here(results: Sequence[Reported]) -> dict[str, int]:
    """How many mutants each suite kills that no other suite of the class kills, by name."""
    killing = [
        [result.name for result in results if result.report.rows[at].status in "KW"]
        for at in range(len(results[0].report.rows))
    ]
    return {result.name: sum(names == [result.name] for names in killing) for result in results}


COLUMNS = (
    "name program unit tests mutants killed equivalent survived score only_here wrong unexpected fault told".split()
)
# What a spreadsheet takes for the beginning of a formula.
FORMULA = ("=", "+", "-", "@", "\t", "\r")


def plain_cell(word: str) -> str:
    """The text, changed so that no spreadsheet takes it for a formula, and in UTF-8."""
    shown = word.encode("utf-8", "replace").decode()
    return f"'{shown}" if shown.startswith(FORMULA) and shown != NO_CODE else shown


def csv_row(result: Result, only: Mapping[str, int]) -> list[object]:
    """The row of a job in the table: what its columns are, the help of course says."""
    names = [plain_cell(result.name), plain_cell(result.program)]
    if result.report is None:
        return [*names, *[""] * 10, result.code, plain_cell(result.refusal)]
    count, report = summed(result.report.counts.values()), result.report
    wrong = sum(row.status == "W" for row in report.rows)
    score = count.survived, score_of(count), only.get(result.name, 0)
    numbers = [report.tests, *count, *score, wrong, result.unexpected]
    return [*names, report.unit, *numbers, "", plain_cell(result.refusal)]
