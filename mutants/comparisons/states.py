"""A state of a program and its tests: what is known of each mutant, of each test, and of the statements."""

import json
from collections.abc import Iterable, Mapping, Sequence
from typing import NamedTuple

from mutants.program.asking import asked_list, asked_print
from mutants.program.unproved import remark_on
from mutants.texts.jobs import read_job
from mutants.texts.lines import Mutant
from mutants.texts.prints import statements_by_line
from mutants.texts.reports import Count, Report, assert_same_mutants, tests_in


class Verdict(NamedTuple):
    """A mutant, its status as reports have it, the tests that kill it, and whether it is declared by a proof alone, as
    far as that is known. Its line may be unknown: 0, and no text."""

    mutant: Mutant
    status: str
    killers: tuple[int, ...]
    is_proved: bool = False

    @property
    def is_killed(self) -> bool:
        return self.status in "KW"


class State(NamedTuple):
    """All that is known. Of a report alone there are no statements, and a test is its number."""

    unit: str
    steps: int
    every: int
    ops: Sequence[str]
    verdicts: Sequence[Verdict]
    tests: Sequence[str]
    statements: Mapping[int, str] = {}
    left_out: Sequence[str] = ()
    remark: str = ""


def count_of(verdicts: Iterable[Verdict]) -> Count:
    """How many mutants these are, how many are killed, and how many are declared equivalent and survived."""
    statuses = [verdict.status for verdict in verdicts]
    return Count(len(statuses), sum(each in "KW" for each in statuses), statuses.count("E"))


def state_of_report(report: Report) -> State:
    """What a report says by itself: lines and texts of survivors alone."""
    texts: dict[tuple[str, int, int], Mutant] = {mutant[:3]: mutant for mutant in report.survivors}
    verdicts = [
        Verdict(texts.get(row[:3]) or Mutant(*row[:3], 0, ""), row.status, tuple(tests_in(row.bits)))
        for row in report.rows
    ]
    tests = [str(number) for number in range(1, report.tests + 1)]
    return State(report.unit, report.steps, report.every, list(report.counts), verdicts, tests)


def state_of_job(report: Report, job: bytes, program: str) -> State:
    """What a report says of its job, with the lines and texts of all mutants as the program lists them."""
    read = read_job(job)
    if len(read.suite) != report.tests:
        raise ValueError(f"the report has {report.tests} tests, and the job {len(read.suite)}")
    words = ["--ops", ",".join(report.counts), "--every", str(report.every)] if report.counts else []
    listed = asked_list(program, words, job)[1] if words else []
    assert_same_mutants(listed, report)
    state = state_of_report(report)
    verdicts = [verdict._replace(mutant=mutant) for mutant, verdict in zip(listed, state.verdicts)]
    statements = statements_by_line(read.source, asked_print(program, job))
    tests = [json.dumps(test) for test in read.suite]
    return state._replace(verdicts=verdicts, tests=tests, statements=statements, remark=remark_on(program))
