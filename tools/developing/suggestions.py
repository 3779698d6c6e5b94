"""Measure `mutants suggest` on programs whose suites have a part of their tests, and see what it has to find.

    tools/suggestions [--seed S].. [--only NAME].. MOTHRA

Each search begins with a part of a suite that a person wrote, or with another suite, and is held against the whole
suite: the survivors that it kills have to be killed too, or a share of them, and where it is said, by no more than so
many tests once needless ones are left out. A search ends after so many rounds, and not by the clock, so that each run
finds the same; only the seconds differ.

Written is a table in Markdown, a row for each program and seed; what is not met is told below it, and the exit status
is then 1.
"""

import argparse
import json
import subprocess
import sys
import tempfile
import time
from pathlib import Path
from typing import NamedTuple

from mutants.jobs.making import made_of
from mutants.program.roots import ROOT
from mutants.statuses import FAULT, SUCCESS
from mutants.texts.reports import read_report
from mutants.words import number_from_1, whole_path

SEEDS = (1, 2)
HEAD = ("Program", "Mutants", "Start", "Person", "**Found**", "Tests", "Seconds", "Seed")
Kills = set[tuple[str, int]]


class Case(NamedTuple):
    """A program; the whole suite; the tests with which a search begins, a table or a number of tests of the whole
    suite; how many rounds are made; the share that has to be killed of what the suite kills and the start does not; the
    most tests."""

    program: Path
    full: Path
    start: Path | int = 3
    rounds: int = 40
    share: float = 1.0
    tests: int | None = None


EXAMPLES, SEARCHES = ROOT / "examples", ROOT / "tests" / "suggestions"
CASES = {
    "triangle-weak": Case(EXAMPLES / "triangle.f", EXAMPLES / "triangle-full.suite.json",
                          EXAMPLES / "triangle-weak.suite.json", tests=18),
    **{name: Case(EXAMPLES / f"{name}.f", EXAMPLES / f"{name}.suite.json") for name in ("sort", "euclid", "closure")},
    **{name: Case(SEARCHES / f"{name}.f", SEARCHES / f"{name}.full.csv", SEARCHES / f"{name}.start.csv")
       for name in ("sieve", "search")},
    "needle": Case(SEARCHES / "needle.f", SEARCHES / "needle.full.csv", SEARCHES / "needle.start.csv", 60, 0.95),
}  # fmt: skip


def called(*words: object) -> None:
    call = [sys.executable, "-B", str(ROOT / "bin" / "mutants"), *map(str, words)]
    ended = subprocess.run(call, capture_output=True, text=True)
    if ended.returncode != SUCCESS:
        raise ValueError(f"mutants {words[0]}: {ended.stderr.strip()}")


def killed_by(mothra: str, program: Path, tests: Path, folder: Path) -> tuple[int, Kills]:
    """How many mutants there are, and which of them the tests of a table kill."""
    report = folder / "report"
    called("check", "--mothra", mothra, "--no-page", "--no-proofs", "--undeclared", "--report", report, program, tests)
    rows = read_report(report.read_text()).rows
    return len(rows), {(row.op, row.place) for row in rows if row.status in "KW"}


def measured(mothra: str, name: str, seed: int, folder: Path) -> tuple[list[object], str]:
    """The cells of a row, and what is not met."""
    case, start, table = CASES[name], folder / "start.json", folder / "table.json"
    suite = made_of(case.program, case.full if isinstance(case.start, int) else case.start).suite
    start.write_text(json.dumps(suite[: case.start] if isinstance(case.start, int) else suite))
    begun = time.monotonic()
    searched = ["--rounds", case.rounds, "--seed", seed, "--drop", "--table", table]
    called("suggest", "--mothra", mothra, "--no-proofs", "--undeclared", *searched, case.program, start)
    seconds = time.monotonic() - begun
    (count, before), (_, person), (_, after) = (
        killed_by(mothra, case.program, tests, folder) for tests in (start, case.full, table)
    )
    tests, missed = len(made_of(case.program, table).suite), person - before - after
    is_met = len(missed) <= (1 - case.share) * len(person - before) and tests <= (case.tests or tests)
    fault = "" if is_met else f"NOT MET: {name}, seed {seed}: {len(missed)} mutants are not killed, with {tests} tests"
    return [name, count, len(before), len(person), f"**{len(after)}**", tests, f"{seconds:.1f}", seed], fault


def add_words(parser: argparse.ArgumentParser) -> None:
    parser.add_argument("mothra", metavar="MOTHRA", type=whole_path)
    parser.add_argument("--seed", metavar="S", type=number_from_1, action="append", help="else the seeds 1 and 2")
    parser.add_argument("--only", metavar="NAME", action="append", choices=CASES, help="this program alone")


def run(given: argparse.Namespace, name: str) -> int:
    faults = []
    for cells in (HEAD, ["---"] * len(HEAD)):
        print(f"| {' | '.join(cells)} |", flush=True)
    with tempfile.TemporaryDirectory() as folder:
        for case in given.only or CASES:
            for seed in given.seed or SEEDS:
                row, fault = measured(given.mothra, case, seed, Path(folder))
                print(f"| {' | '.join(map(str, row))} |", flush=True)
                faults += [fault] if fault else []
    print("".join(f"{fault}\n" for fault in faults), end="")
    return FAULT if faults else SUCCESS
