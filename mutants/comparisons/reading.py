"""States read from files: reports of `mothra run`, and what `mutants check --json` writes."""

import json
from collections.abc import Collection, Mapping
from pathlib import Path
from typing import Any

from mutants.comparisons.states import State, Verdict, state_of_job, state_of_report
from mutants.exports.mutation_report import text_in
from mutants.program.calling import read_as, text_of
from mutants.texts.lines import Mutant
from mutants.texts.reports import read_report

# The names of a mutation report, and the statuses of mutants that are not declared and that are.
STATUSES = {"Killed": "KW", "Survived": "SS", "NoCoverage": "SS", "Ignored": "EE"}
NEITHER = "it is neither a report of mothra run nor a file of mutants check --json"


def initial_line(statements: Mapping[int, str], line: int) -> int:
    """The initial line of the statement that has a line."""
    return max(first for first in statements if first <= line)


def verdict_of(
    entry: Mapping[str, Any], numbers: Mapping[str, int], statements: Mapping[int, str], proved: Collection[str]
) -> Verdict:
    """The verdict of a mutant of a mutation report."""
    op, place = entry["id"].split(" ")
    line = initial_line(statements, entry["location"]["start"]["line"])
    mutant = Mutant(op, numbers[entry["id"]], int(place), line, text_in(entry["description"]))
    status = STATUSES[entry["status"]]["statusReason" in entry]
    return Verdict(mutant, status, tuple(map(int, entry["killedBy"])), entry["id"] in proved)


def numbers_of(ids: list[str]) -> dict[str, int]:
    """The numbers of mutants within their operators, from 1."""
    counts: dict[str, int] = {}
    numbers = {}
    for name in ids:
        op = name.partition(" ")[0]
        counts[op] = numbers[name] = counts.get(op, 0) + 1
    return numbers


def state_of_mutation_report(text: str) -> State:
    """What a mutation report says; it has to be one that a check has written."""
    try:
        report = json.loads(text)
        config, (file,) = report["config"], report["files"].values()
        statements = {int(line): statement for line, statement in config["statements"].items()}
        numbers = numbers_of([entry["id"] for entry in file["mutants"]])
        # Files of earlier versions say nothing of proofs.
        proved = set(config.get("proved", []))
        verdicts = [verdict_of(entry, numbers, statements, proved) for entry in file["mutants"]]
        tests = [json.dumps(test) for test in config["suite"]]
        remark = report["framework"]["name"].removeprefix("mutants").removeprefix(". ")
        values = config["operators"], verdicts, tests, statements, config["leftOut"], remark
        return State(config["unit"], config["steps"], 1, *values)
    except (KeyError, TypeError, AttributeError, ValueError, IndexError, RecursionError):
        raise ValueError("it is no whole file of this version's mutants check --json") from None


def is_mutation_report(text: str) -> bool:
    return text.lstrip().startswith("{")


def read_state(path: Path) -> State:
    """The state of a file of either kind, by what it begins with."""
    text = text_of(path)
    if is_mutation_report(text):
        return read_as(path, state_of_mutation_report, text)
    if not text.startswith(("REPORT ", "FAULT ")):
        raise ValueError(f"{path}: {NEITHER}")
    return state_of_report(read_as(path, read_report, text))


def read_state_with_job(path: Path, job: Path, program: str) -> State:
    """The state of a report, and of the job that it is of."""
    report = read_as(path, read_report, text_of(path))
    return read_as(job, lambda text: state_of_job(report, text, program), job.read_bytes())
