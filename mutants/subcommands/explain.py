"""Say in words what a fault of mothra means for a job: the rule, the line of the source with a mark, and what to do.

    mutants explain [OPTION..] JOB [WORD..]
    mutants explain [OPTION..] PROGRAM.f [TESTS.json|TESTS.csv] [WORD..]
    mutants explain [--mothra MOTHRA] JOB FAULT CODE [DETAIL..]
    mothra run < JOB | mutants explain JOB -

The program is run on the job with these words (`run` where there are none), and its fault is explained; or the line of
a fault is given, as words or on standard input. For a fault of the suite the test is shown, for one of the words the
option. A rule of the language is named with its sections of ANSI X3.9-1978. For B4 the program is asked what it does on
the test, and which step ended its run; for B5 how many mutants there are.

Of a program and its tests a job is made, as by mutants job and with its options. Where the program cannot be read, up
to ten other faults are listed, each with its line: the first one is taken out of a copy, and mothra is asked again.
A statement of FORTRAN 77 outside the subset, or of later Fortran, is named, with what to write instead.

The exit status is 0 where a fault was explained, or where there is none.
"""

import argparse
import re
import sys
from collections.abc import Sequence
from functools import cache
from pathlib import Path

from mutants.checks.settings import READING, with_settings
from mutants.explanations.also import other_faults_text
from mutants.explanations.explanation import BAD_LIST, explained, explained_words
from mutants.explanations.words import OPTIONS, words_say
from mutants.jobs.given import Given, job_to_tell
from mutants.jobs.making import add_making_options
from mutants.jobs.sources import is_program
from mutants.program.calling import call, failure_of
from mutants.program.finding import add_mothra_option, find_program, find_program_if_any
from mutants.program.unproved import remark_on
from mutants.statuses import SUCCESS
from mutants.subcommands.check import add_options
from mutants.texts.jobs import read_job
from mutants.words import tell_remarks, visible


def add_words(parser: argparse.ArgumentParser) -> None:
    add_mothra_option(parser)
    add_making_options(parser)
    parser.add_argument("job", metavar="JOB|PROGRAM.f", type=Path, help="the job, a file, or a program in fixed form")
    text = "words for mothra, or the line of a fault, or - where that is on standard input"
    parser.add_argument("words", metavar="WORD", nargs=argparse.REMAINDER, help=text)


def given_line(words: list[str]) -> str | None:
    """The line that was given, and None where the words are for the program."""
    line = sys.stdin.readline() if words == ["-"] else " ".join(words)
    return line.strip("\r\n ") if words == ["-"] or line.startswith(("FAULT ", BAD_LIST)) else None


def asked_line(program: str, words: list[str], text: bytes) -> str | None:
    """The line of the fault that the program gives the job, or None."""
    answer, status = call(program, words, text)
    return failure_of(answer, status) if status else None


def given_words(given: argparse.Namespace) -> tuple[Path | None, list[str]]:
    """The table of tests behind a program, where there is one, and the words for mothra."""
    words = list(given.words)
    late = next((word for word in words[:2] if word.startswith("--")), None) if is_program(given.job) else None
    if late and words[0] not in OPTIONS:
        raise ValueError(f"{late} stands behind {given.job}: options come before it, and words for mothra behind")
    if is_program(given.job) and words and Path(words[0]).suffix.lower() in (".csv", ".json"):
        return Path(words[0]), words[1:]
    return None, words


def row_text(line: str, rows: Sequence[int]) -> str:
    """The row of the table for the test that a fault names."""
    of_test = re.fullmatch(r"FAULT (?:B3|B4|J4) (\d+)", line)
    place = int(of_test[1]) - 1 if of_test else -1
    return f"\nTest {place + 1} stands in row {rows[place]} of its table.\n" if 0 <= place < len(rows) else ""


def explanation(line: str, words: list[str], asked: Given, program: str | None, is_asked: bool) -> str:
    """The explanation of a line. Where the program was asked, all other faults of the unit, too."""
    if line.startswith("FAULT "):
        text = explained(line, asked.job, program, words, asked.said.shown)
        if program and is_asked and line[6:7] in "FSC":
            job = read_job(asked.job)
            also = other_faults_text(program, job.source, asked.said.shown_for(job))
            text += f"\n{also}" if also else ""
        return text + row_text(line, asked.rows)
    if line == BAD_LIST or words and words_say(words):
        return explained_words(line, words)
    raise ValueError(f"no line of a fault: {line[:80]}")


def run(given: argparse.Namespace, name: str) -> int:
    find = cache(lambda: find_program(given.mothra))
    given.tests, rest = given_words(given)
    if is_program(given.job):
        with_settings(given, given.job, add_options, READING)
    asked = job_to_tell(given, given.job, given.tests, find)
    tell_remarks(name, asked.warnings)
    line, words = given_line(rest), rest or ["run"]
    is_asked = line is None
    program: str | None
    if is_asked:
        program = find()
        line = asked_line(program, words, asked.job)
    else:
        program, words = find_program_if_any(given.mothra), []
    if line is None or line.startswith("REPORT "):
        sys.stdout.write("There is no fault.\n")
    else:
        sys.stdout.write(visible(explanation(line, words, asked, program, is_asked)))
    if program and remark_on(program):
        sys.stdout.write(f"\n{remark_on(program)}\n")
    return SUCCESS
