"""Run the suites of a class, and make a table and a page of what they kill.

    mutants course [OPTION..] FOLDER

The folder has programs in fixed form, NAME.f (or .for, .ftn, .f77), and in FOLDER/suites lie the tables of tests that
are handed in, as mutants check takes them, NAME.json or NAME.csv (or NAME.suite.json), of any length. With one program
each table is a suite of it: a file for each student. With several a table is of the program whose name it has, or has
before a hyphen (sort-anna.csv is of sort.f); a table named suite is of each program without a table of its own. Beside
the programs NAME.equivalent.csv, or equivalent.csv with one program, has the mutants that are declared equivalent, as
mutants declare writes them (a bare list in .json is read too). mutants.ini (or mutants.toml) has options: in [mutants]
those of the class (ops, except, steps, no-proofs, fail-under), and there or in the section of a program how it is read
and what is declared of it (unit, size, expand-tabs, equivalent, undeclared). Where there is no folder suites the tables
lie beside the programs; then neither of these is read, since anybody may have handed it in. A table that is a link is
refused.

Those mutants that the program equivalents proves equivalent are declared by themselves; it is asked here, once for each
program. Those with steps to spare are not: such a proof is of one suite alone. --unit, --size and --expand-tabs are
those of mutants job, for each program of the folder. --fail-under tells which suites have a score below it, with status
3.

Each table becomes a job. The jobs are run side by side, N at once (else one for each processor), each as a process with
one thread. With --sshlogin GNU parallel spreads them over machines, and MOTHRA is then the name of the program on all
of these. Jobs whose result is there are not run again: so a second call goes on where the first was cut, and does what
has changed. How many are done stands on standard error.

Written are, in FOLDER/out: jobs/NAME.json, .report and .outcomes (the job, what mothra run wrote of it, and what the
program itself does on each test), jobs/NAME.html (its page), course.html (the page of the class), and course.csv with
these columns: name (of the table), program, unit, tests, mutants, killed, equivalent (declared or proved, and not
killed), survived, score (in percent, rounded down, or NONE), only_here (mutants that no other suite of the program
kills), wrong (declared, but killed), unexpected (tests on which the program does not do what their column expect
says), fault (its code; - where there was no job or no answer) and told (what it is, in words). A name that a
spreadsheet would compute has an apostrophe in front. What has not changed is not made again.
A job without a report is a row with its fault, and stops no other one. Where there are such jobs, a line says how many
and which, and the exit status is 1. Those that have no answer are asked for again by the next call.
"""

import argparse
import json
import sys
from collections.abc import Collection, Mapping, Sequence
from fractions import Fraction
from pathlib import Path

from mutants.checks.running import Means
from mutants.checks.settings import READING, with_settings
from mutants.checks.threshold import add_threshold, is_below
from mutants.classes.batched import Batched
from mutants.classes.folder import SUITES, Prove, Read, Reading, Results, Task, suites_folder, tasks_in, unread_remarks
from mutants.classes.kept import KeptClass, Summary, digest_of_class
from mutants.classes.page import View, course_page
from mutants.classes.processes import run_here
from mutants.classes.results import COLUMNS, Result, csv_row, failed_text, only_here, reported_of
from mutants.classes.suites import Asked, Known, Suite, suite_of, write_pages
from mutants.declarations.proofs import NO_PROOFS, Proofs
from mutants.declarations.proving import add_proof_options, prover_of
from mutants.english import joined_words
from mutants.files import written
from mutants.jobs.making import add_reading_options, wish_of
from mutants.operators import chosen_codes
from mutants.program.asking import asked_list, asked_print
from mutants.program.calling import Fault
from mutants.program.finding import add_mothra_option, find_program
from mutants.program.parallel import find_parallel, spread
from mutants.program.unproved import remark_on
from mutants.progress import Progress
from mutants.statuses import BELOW, FAULT, SUCCESS
from mutants.subcommands.check import add_options
from mutants.texts.jobs import Job, read_job
from mutants.texts.prints import statements_by_line
from mutants.texts.reports import summed
from mutants.texts.separated import row_text
from mutants.words import (
    add_mothra_options, add_operators, asked_words, number_from_1, percent_text, tell_remarks, visible,
)  # fmt: skip

# What a file of options says of the whole class.
OF_CLASS = ("ops", "without", "steps", "no_proofs", "fail_under")
# How much of what parallel says of a failure is shown.
LONGEST = 200


def add_words(parser: argparse.ArgumentParser) -> None:
    parser.add_argument("folder", metavar="FOLDER", type=Path, help="the programs and the tables of tests")
    add_mothra_option(parser)
    add_proof_options(parser)
    parser.add_argument("--jobs", metavar="N", type=number_from_1, help="how many jobs at once, on each machine")
    text = "a machine, as parallel takes it; may be given again"
    parser.add_argument("--sshlogin", metavar="LOGIN", action="append", default=[], help=text)
    add_reading_options(parser)
    add_operators(parser)
    add_threshold(parser)
    add_mothra_options(parser, "every", "steps")


def run_missing(given: argparse.Namespace, program: str, tasks: list[Task], results: Results, name: str) -> bool:
    """Runs the jobs that have no result yet. The result says whether there were any."""
    missing = [task for task in tasks if results.is_missing(task)]
    if not missing:
        return False
    if given.sshlogin:
        find_parallel()
    progress, done = Progress(name), [len(tasks) - len(missing)]
    progress.tell(f"{done[0]} of {len(tasks)}")

    def keep(place: int, text: str) -> None:
        results.keep(missing[place], text)
        done[0] += 1
        progress.tell(f"{done[0]} of {len(tasks)}")

    words, complaint = [*results.words, "--workers", "1"], ""
    batched = Batched([task.text for task in missing if task.text is not None], keep)
    try:
        if given.sshlogin:
            # With other machines the word names a program that each of them knows.
            called, calls = given.mothra or program, [(["run", *words], text) for text in batched.texts]
            complaint = spread(called, calls, given.jobs, given.sshlogin, batched.take_answer)
        else:
            run_here(program, words, batched.texts, given.jobs, batched.take)
    finally:
        progress.end()
    if done[0] < len(tasks):
        reason = f": {complaint[:LONGEST]}" if complaint else ""
        sys.stderr.write(f"{name}: {len(tasks) - done[0]} jobs have no answer{reason}\n")
    return True


def known_of(program: str, text: bytes, words: list[str]) -> Known | None:
    """What the program says of the source of a job; None where it has a fault."""
    try:
        return Known(asked_print(program, text), asked_list(program, words, text)[1])
    except Fault as fault:
        if not fault.line.startswith("FAULT "):
            raise
        return None


def known_programs(given: argparse.Namespace, program: str, tasks: list[Task]) -> dict[str, Known]:
    """Of each program of the folder that has no fault: its printed text and its mutants."""
    words = asked_words(given, "ops", "every")
    first = {task.program_name: task.made.text(suite=[]).encode() for task in reversed(tasks) if task.made}
    programs = {name: known_of(program, text, words) for name, text in first.items()}
    return {name: known for name, known in programs.items() if known}


def view_of(task: Task, known: Known) -> View:
    """What the page of the class shows of a program."""
    return View(task.shown, statements_by_line(read_job(task.text or b"").source, known[0]), known[1], task.proofs)


def prove_with(given: argparse.Namespace, program: str) -> Prove:
    """What is proved of a source, whose mutants are those that mothra lists."""
    prover, words = prover_of(given), asked_words(given, "ops", "every")

    def prove(source: str, declared: Collection[str]) -> Proofs:
        known = known_of(program, json.dumps({"source": source}).encode(), words)
        if not known:
            # The run reports the fault of the source.
            return NO_PROOFS
        # The suites of a class are compared, so the same mutants are declared for each.
        return prover.proofs(words, Job(source, [], list(declared)), known[1]).for_all_tests()

    return prove


def proof_remarks(tasks: Sequence[Task]) -> list[str]:
    """What was not asked for proofs, and that a build is unproved."""
    remarks = [text for task in tasks for text in (task.proofs.left_open(), task.proofs.remark) if text]
    return list(dict.fromkeys(remarks))


def write_table(out: Path, results: list[Result]) -> None:
    """The table of the class, a row for each job."""
    rows: list[Sequence[object]] = [COLUMNS]
    for name in dict.fromkeys(result.program for result in results):
        ours = [result for result in results if result.program == name]
        reported = reported_of(ours)
        only = only_here(reported) if reported else {}
        rows += [csv_row(result, only) for result in ours]
    written(out / "course.csv", "".join(map(row_text, rows)).encode())


def write_class(out: Path, suites: Sequence[Suite], known: Mapping[str, Known], remark: str) -> None:
    """The table and the page of the class, whose title is the name of its folder."""
    results = [suite.result for suite in suites]
    write_table(out, results)
    views = {
        suite.task.program_name: view_of(suite.task, known[suite.task.program_name])
        for suite in suites
        if suite.task.text is not None and suite.task.program_name in known
    }
    text = course_page(out.resolve().parent.name, results, views, remark)
    written(out / "course.html", text.encode("utf-8", "replace"))


def summary_of(suites: Sequence[Suite], out: Path, remark: str, least: Fraction | None) -> Summary:
    """The text on the class."""
    results = [suite.result for suite in suites]
    below = [each.name for each in reported_of(results) if is_below(summed(each.report.counts.values()), least)]
    names = [each.name for each in reported_of(results)]
    lines = [f"{len(names)} of {len(results)} with a report: {out / 'course.html'}"]
    lines += [*proof_remarks([suite.task for suite in suites]), *([remark] if remark else [])]
    lines += [f"BELOW --fail-under: {joined_words(below)}, below {percent_text(least)} %."] if least and below else []
    return Summary(lines, failed_text(results), names, bool(below))


def made_anew(given: argparse.Namespace, means: Means, tasks: list[Task], results: Results, remark: str) -> Summary:
    """Writes all files of the class that are not there yet or would be others, and gives what is said of them."""
    known, out, asked = known_programs(given, means.program, tasks), given.folder / "out", Asked(means)
    suites = [suite_of(task, known.get(task.program_name), asked, results) for task in tasks]
    write_class(out, suites, known, remark)
    write_pages(suites, known, remark, results)
    return summary_of(suites, out, remark, given.fail_under)


def read_with(given: argparse.Namespace, has_settings: bool) -> Read:
    """How each program is read, by the words and by the file of options."""

    def read(program: Path) -> Reading:
        own = argparse.Namespace(**{**vars(given), "equivalent": None, "undeclared": False})
        if has_settings:
            with_settings(own, program, add_options, READING)
        return Reading(wish_of(own), own.equivalent, not own.undeclared)

    return read


def take_settings(given: argparse.Namespace) -> bool:
    """Fills in what the file of options says of the whole class. The result says whether the file is read at all."""
    has_settings: bool = suites_folder(given.folder) != given.folder
    if has_settings:
        with_settings(given, given.folder / SUITES, add_options, OF_CLASS)
    if given.ops or given.without:
        given.ops = ",".join(chosen_codes(given.ops, given.without))
    return has_settings


def run(given: argparse.Namespace, name: str) -> int:
    program, read = find_program(given.mothra), read_with(given, take_settings(given))
    tasks = tasks_in(given.folder, program, read, prove_with(given, program))
    remarks = [*unread_remarks(given.folder), *(remark for task in tasks for remark in task.remarks)]
    tell_remarks(name, dict.fromkeys(remarks))
    results = Results(given.folder / "out" / "jobs", asked_words(given, "ops", "every", "steps"))
    has_run, remark = run_missing(given, program, tasks, results, name), remark_on(program)
    kept, digest = KeptClass(given.folder / "out"), digest_of_class(tasks, results, f"{remark}{given.fail_under}")
    summary = None if has_run else kept.summary(digest, results)
    if summary is None:
        summary = made_anew(given, Means(program, given.steps), tasks, results, remark)
        kept.keep(digest, summary)
    sys.stdout.write(visible("".join(f"{line}\n" for line in summary.lines)))
    sys.stderr.write(visible(f"{name}: {summary.failed}\n" if summary.failed else ""))
    return FAULT if summary.failed else BELOW if summary.is_below else SUCCESS
