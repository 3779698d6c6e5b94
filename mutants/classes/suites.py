"""The result of each suite of a class, in words, and its page, which is written where something in it has changed."""

import json
from collections.abc import Mapping, Sequence
from typing import NamedTuple

from mutants.caches import digest_of, tool_digest
from mutants.checks.checking import dummies_of
from mutants.checks.faults import said_of, program_fault
from mutants.checks.outcomes import Difference, ask_outcomes, differences
from mutants.checks.running import Means
from mutants.classes.batched import OF_TEST
from mutants.classes.folder import Results, Task
from mutants.classes.results import NO_CODE, Result
from mutants.declarations.said import Said
from mutants.pages.report import Analysed, Outcomes, report_page
from mutants.program.calling import Fault
from mutants.texts.jobs import Job, read_job
from mutants.texts.lines import Mutant
from mutants.texts.reports import Report, read_report

NO_ANSWER = "no answer"


class Known(NamedTuple):
    """What the program says of the source of a job: its printed text and its mutants."""

    printed: list[str]
    listed: list[Mutant]


class Suite(NamedTuple):
    """A suite: its job, what `mothra run` wrote of it, its result, and where it has a report what the program
    does on each test, and on which it is not what is expected."""

    task: Task
    text: str
    result: Result
    outcomes: Sequence[str] = ()
    unexpected: Sequence[Difference] = ()


def words_of(task: Task, line: str) -> str:
    """What the line of a fault means: of a test with its row, of the program with its line."""
    of_test = OF_TEST.fullmatch(line)
    if of_test and 0 < int(of_test[2]) <= len(task.rows):
        return f"row {task.rows[int(of_test[2]) - 1]}: {said_of(line)}"
    if not line.startswith("FAULT ") or not task.made or not task.program:
        return line
    return str(program_fault(task.program, task.made.source.text, task.shown, Fault("run", line)))


def refused(task: Task, text: str | None) -> Result:
    """The result of a job without a report."""
    line = text.splitlines()[0] if text and text.strip() else NO_ANSWER
    suite = task.made.suite if task.made else []
    code = line.split(" ")[1] if line.startswith("FAULT ") else NO_CODE
    reason = task.refusal or words_of(task, line)
    return Result(task.name, task.program_name, suite, None, reason.replace(f"{folder_of(task)}/", ""), code)


def folder_of(task: Task) -> str:
    return str(task.program.parent) if task.program else "."


class Asked:
    """What the programs themselves do on tests. Each test of the class is run once, even if several suites have it."""

    def __init__(self, means: Means) -> None:
        self.means, self.known = means, dict[tuple[str, str], str]()

    def lines(self, task: Task, results: Results) -> list[str]:
        """What the program does on each test of a job that has a report; it is kept."""
        kept = results.outcomes(task)
        if kept is not None:
            return kept
        job = read_job(task.text or b"")
        keys = [(task.program_name, json.dumps(test)) for test in job.suite]
        new = list(dict.fromkeys(key for key in keys if key not in self.known))
        tests = [json.loads(text) for _, text in new]
        self.known.update(zip(new, ask_outcomes(Job(job.source, tests), range(len(tests)), self.means, None)))
        results.keep_outcomes(task, [self.known[key] for key in keys])
        return [self.known[key] for key in keys]


def suite_of(task: Task, known: Known | None, asked: Asked, results: Results) -> Suite:
    """The result of a job."""
    text = None if task.text is None else results.text(task)
    if text is None or not text.startswith("REPORT ") or not known:
        return Suite(task, text or "", refused(task, text))
    report, outcomes = read_report(text), asked.lines(task, results)
    suite = task.made.suite if task.made else []
    refusal, unexpected = "", list[Difference]()
    try:
        unexpected = differences(task.expected, outcomes, dummies_of(known.printed))
    except ValueError as fault:
        refusal = str(fault)
    result = Result(task.name, task.program_name, suite, report, refusal, unexpected=len(unexpected))
    return Suite(task, text, result, outcomes, unexpected)


def digest_of_all(*made_of: object) -> str:
    """The digest of all of which a page is made."""
    return digest_of(*(repr(each).encode("utf-8", "replace") for each in made_of))


def digest_of_page(suite: Suite, shared: str) -> str:
    """The digest of a page: of what it shares with the others of its program, and of what is its own."""
    return digest_of_all(shared, suite.task.text, suite.task.remarks, suite.text, suite.outcomes, suite.unexpected)


def digest_of_program(task: Task, known: Known, remark: str) -> str:
    """The digest of what the pages of a program share, and of what makes them."""
    proofs = sorted(task.proofs.spares.items()), task.proofs.remark
    return digest_of_all(tool_digest(), known, task.shown, task.meant, proofs, remark)


def page_of(suite: Suite, known: Known, report: Report, remark: str) -> str:
    """The page of a suite."""
    task = suite.task
    said = Said(task.shown, task.meant.reasons, task.remarks, task.proofs, task.made.titles if task.made else ())
    outcomes = Outcomes(suite.outcomes, {each.test: each.expected for each in suite.unexpected})
    return report_page(Analysed(read_job(task.text or b""), *known, report), remark, outcomes, said)


def write_pages(suites: Sequence[Suite], known: Mapping[str, Known], remark: str, results: Results) -> None:
    """Writes the page of each suite that has a report, where that page is not there yet or is another one."""
    shared: dict[str, str] = {}
    for suite in suites:
        report, its = suite.result.report, known.get(suite.task.program_name)
        if report is None or its is None:
            continue
        name = suite.task.program_name
        shared[name] = shared.get(name) or digest_of_program(suite.task, its, remark)
        digest = digest_of_page(suite, shared[name])
        if not results.has_page(suite.task, digest):
            results.keep_page(suite.task, digest, page_of(suite, its, report, remark))
