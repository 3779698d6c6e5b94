"""Make one HTML file of what mothra says of a job: the program with its survivors, the kill matrix, the score.

    mutants page [--mothra MOTHRA] [--ops A,B] [--every Q] [--steps N] [--workers N] JOB > page.html
    mutants page [OPTION..] PROGRAM.f [TESTS.json|TESTS.csv] > page.html
    mutants page --print FILE --list FILE --report FILE [--outcomes FILE] JOB > page.html

Of a program and its tests a job is made, as by mutants job and with its options. Declared mutants stand on the page
with their texts and reasons; of a job the reasons are those of the file that --equivalent names.

The program is asked for `print`, `list` and `run` with the job, and for `exec` with each test. Any of these texts can
be given as a file instead, as the program wrote it, the outcomes a line each; with the first three the program is not
needed. The page is one file that needs no script, and nothing in it is loaded from elsewhere.

Before `run`, the program equivalents is asked, if it is there, which mutants are proved equivalent. These are declared
too, and stand folded and apart. It is not asked with --no-proofs, and where the report is given as a file.

`run` is asked for a few operators at a time, so that a line on standard error can say how far it is; the reports are
joined. A text that is no such text, is cut short or is not of this job is refused with one line and status 1.
"""

import argparse
import sys
from collections.abc import Mapping, Sequence
from functools import cache
from pathlib import Path

from mutants.checks.checking import STEPS
from mutants.checks.faults import naming_line, run_fault
from mutants.checks.outcomes import asked_outcomes
from mutants.checks.running import Means
from mutants.checks.settings import READING, with_settings
from mutants.declarations.boxes import kept_boxes
from mutants.declarations.proofs import NO_PROOFS, Proofs
from mutants.declarations.proving import add_proof_options, prover_of
from mutants.jobs.given import job_to_tell
from mutants.jobs.making import add_making_options
from mutants.jobs.sources import is_program
from mutants.pages.report import Analysed, Outcomes, report_page
from mutants.program.asking import asked_report
from mutants.program.calling import Fault, answer, read_as, text_of
from mutants.program.finding import add_mothra_option, find_program
from mutants.program.unproved import remark_on
from mutants.statuses import SUCCESS
from mutants.subcommands.check import add_options
from mutants.texts.jobs import Job, declared_text, read_job
from mutants.texts.lines import Mutant, lines_of_text
from mutants.texts.lists import read_list
from mutants.texts.prints import read_print
from mutants.texts.reports import Report, read_report
from mutants.words import add_mothra_options, asked_words, tell_remarks


def add_words(parser: argparse.ArgumentParser) -> None:
    parser.add_argument("job", metavar="JOB|PROGRAM.f", type=Path, help="the job, a file, or a program in fixed form")
    parser.add_argument("tests", metavar="TESTS", type=Path, nargs="?", help="a table of tests of the program")
    add_mothra_option(parser)
    add_proof_options(parser)
    add_making_options(parser)
    add_mothra_options(parser, "ops", "every", "steps", "workers")
    for option, command in (("print", "print"), ("list", "list"), ("report", "run")):
        parser.add_argument(f"--{option}", metavar="FILE", help=f"what mothra {command} wrote, in place of asking it")
    parser.add_argument("--outcomes", metavar="FILE", help="what mothra exec wrote of each test, a line each")


def text_from(path: str | None, program: str, words: Sequence[str], job: bytes) -> tuple[str, str]:
    """A text that is given as a file, or that the program is asked for; and the name that an error gives it."""
    return (path, text_of(path)) if path else (f"mothra {words[0]}", answer(program, words, job))


def outcomes_of(given: argparse.Namespace, program: str, job: Job, name: str) -> Outcomes:
    """What the program itself does on each test: from a file, or asked of it; none where there is neither."""
    if not given.outcomes:
        return Outcomes(asked_outcomes(job, Means(program, given.steps, anew=given.anew), name) if program else ())
    lines = read_as(given.outcomes, lambda text: lines_of_text(text, "the outcomes"), text_of(given.outcomes))
    if len(lines) != len(job.suite):
        raise ValueError(f"{given.outcomes}: it has {len(lines)} outcomes, and the job {len(job.suite)} tests")
    return Outcomes(lines)


def proofs_of(given: argparse.Namespace, job: Job, listed: Sequence[Mutant]) -> Proofs:
    """What is proved of the mutants of a job; nothing where a report is given, which has its own declarations."""
    if given.report:
        return NO_PROOFS
    return prover_of(given).proofs(asked_words(given, "ops", "every", "steps"), job, listed)


def report_of(given: argparse.Namespace, program: str, totals: Mapping[str, int], text: bytes, name: str) -> Report:
    """The report, from a file or asked for."""
    if given.report:
        return read_as(given.report, read_report, text_of(given.report))
    try:
        return asked_report(program, asked_words(given, "every", "steps", "workers"), totals, text, name)
    except Fault as fault:
        raise run_fault(read_job(text).equivalent, fault) from None


def run(given: argparse.Namespace, name: str) -> int:
    command, find = name, cache(lambda: find_program(given.mothra))
    if given.tests or is_program(given.job):
        with_settings(given, given.job, add_options, READING)
    asked = job_to_tell(given, given.job, given.tests, find)
    text, job = asked.job, read_as(given.job, read_job, asked.job)
    needed = [given.print, given.list, given.report]
    program = find() if None in needed else ""
    tell_remarks(name, asked.warnings)
    chosen = asked_words(given, "ops", "every")
    with naming_line(given.job, job.source, asked.said.shown_for(job)):
        name, written = text_from(given.print, program, ["print"], text)
        printed = read_as(name, read_print, written)
        name, written = text_from(given.list, program, ["list", *chosen], text)
        totals, listed = read_as(name, read_list, written)
    proofs = proofs_of(given, job, listed)
    report = report_of(given, program, totals, declared_text(text, proofs.names), command)
    outcomes = outcomes_of(given, program, job, command)
    # A page is UTF-8 whatever the terminal takes.
    said = asked.said._replace(proofs=proofs, boxes=kept_boxes(program, job.source, int(given.steps or STEPS)))
    page = report_page(Analysed(job, printed, listed, report), remark_on(program), outcomes, said)
    sys.stdout.buffer.write(page.encode())
    return SUCCESS
