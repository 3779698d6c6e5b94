"""Try to kill mutants that are proved equivalent: none may be.

    tools/equivalents-sweep [--programs N] [--seed S] [--tests N] [--rows N] [--jobs N] MOTHRA EQUIVALENTS [PROGRAM.f]..

The programs are those that are named, else the examples, and behind them N (500) small ones made by chance, the same
for the same seed. For each the program equivalents is asked which of all mutants are equivalent, and MOTHRA is asked
which of these are killed by up to 256 tests: arguments at the ends of INTEGER, at 0, 1 and -1, at constants of the
program and beside them, small ones, and any. So many more are tried of the rows that equivalents writes for the mutants
which it does not prove, N (4) for each (--rows): they kill one where a proof failed. Tests on which the program itself
fails are left out, as no suite may have them. All tests are run with the limit of 10000 steps, and some again with
small limits, on which the program ends too. A mutant with steps to spare has to live on the tests alone that leave it
that room.

There is a line for each program that is named, one for all that were made, and one for each mutant that is killed, with
the source of a made program below it. A made program is given up where nothing is proved of it and mutants are not
finished: mostly the walk of the program itself did not come to an end. The exit status is 1 where there is one.
"""

import argparse
import json
from collections.abc import Collection, Iterator, Sequence
from concurrent.futures import ThreadPoolExecutor
from functools import partial
from pathlib import Path
from random import Random
from typing import NamedTuple

from developing.robustness.edges import rows_for
from developing.robustness.programs import program_of
from mutants.checks.checking import STEPS, Checked
from mutants.checks.running import Means
from mutants.declarations.proofs import assert_listed
from mutants.english import plural
from mutants.program.asking import asked_list, asked_print
from mutants.program.calling import Fault, plain_answer, read_as
from mutants.program.many import processors
from mutants.program.programs import EQUIVALENTS
from mutants.program.roots import ROOT
from mutants.statuses import FAULT, SUCCESS
from mutants.suggestions.asking import Asker
from mutants.suggestions.clock import Clock
from mutants.suggestions.shapes import Row, row_of, test_of
from mutants.suggestions.values import constants_of
from mutants.texts.decoding import decoded
from mutants.texts.dummies import read_unit
from mutants.texts.jobs import Job
from mutants.texts.proofs import Answer, Proof, meaning_of, read_proofs
from mutants.texts.reports import Count, Report
from mutants.words import number_from_1, whole_path

PROGRAMS, TESTS, SEED, ROWS = 500, 256, 1, 4
# The most rounds of rows that are made, and how many rows are tried with a small limit on steps.
ROUNDS, FEW = 6, 48
SMALL = (2, 4, 7, 12, 20, 40)
# The operator that is run where only the program itself is asked about: few programs have a mutant of it.
FEW_MUTANTS = "DSA"
# What is said of a test that chance did not make.
LED = ", a row of a failed proof"


class Case(NamedTuple):
    """A program: its name, its source, and whether it was made."""

    name: str
    source: str
    is_made: bool = False


class Killed(NamedTuple):
    """A proof, and the test and the limit on steps with which its mutant is killed."""

    proof: Proof
    test: Row
    steps: int

    def text(self) -> str:
        mutant = self.proof.mutant
        named = f"{mutant.op} {mutant.number} {mutant.place} LINE {mutant.line} {mutant.text}"
        killed = f"killed by {json.dumps(test_of(self.test))} with --steps {self.steps}"
        return f"{named}, {meaning_of(self.proof.spare)}: {killed}"


class Tried(NamedTuple):
    """The result for a program: how many mutants it has, the answer, the tests that were run, which of them chance did
    not make but a failed proof led to, and what is wrong. Where chance kills a mutant no other test is named."""

    case: Case
    mutants: int
    answer: Answer
    tests: Sequence[Row] = ()
    led: Collection[Row] = ()
    killed: Sequence[Killed] = ()
    refused: str = ""

    def killed_by_led(self) -> list[Killed]:
        """Those that chance alone does not kill."""
        return [each for each in self.killed if each.test in self.led]


class Programs(NamedTuple):
    """The two programs, how many tests are run, and how many rows are asked for of each mutant."""

    mothra: str
    equivalents: str
    tests: int
    seed: int
    rows: int


def answer_of(programs: Programs, job: bytes) -> Answer:
    """What equivalents says of a job, now: a sweep keeps no answers."""
    words = ["--rows", str(programs.rows)] if programs.rows else []
    return read_as(EQUIVALENTS.name, read_proofs, plain_answer(EQUIVALENTS.name, programs.equivalents, words, job))


def asker_of(case: Case, printed: list[str], proofs: Sequence[Proof], mothra: str) -> Asker:
    """An asker for the mutants that are proved: which of them are killed."""
    ops = sorted({proof.mutant.op for proof in proofs})
    report = Report("", 0, STEPS, 1, dict.fromkeys(ops, Count(0, 0, 0)), [], [])
    checked = Checked(Job(case.source, []), printed, {}, [], report, report, [], [], [])
    return Asker(checked, [proof.mutant for proof in proofs], Means(mothra, workers="1"), Clock(None))


def fitting_rows(case: Case, asker: Asker, printed: Sequence[str], tests: int, chance: Random) -> list[Row]:
    """Rows on which the program ends, about `tests`."""
    fitting: dict[Row, None] = {}
    make = rows_for(read_unit(case.source)[1], constants_of(printed), chance)
    for _ in range(ROUNDS):
        rows = list(dict.fromkeys(row for row in (next(make) for _ in range(tests)) if row not in fitting))
        fitting.update(dict.fromkeys(asker.ending(rows, STEPS)))
        if len(fitting) >= tests:
            break
    return list(fitting)[:tests]


def led_rows(answer: Answer, tests: int, chance: Random) -> list[Row]:
    """Rows to which proofs of other mutants led that failed, at most `tests`."""
    rows = list(dict.fromkeys(row_of(candidate.test) for candidate in answer.candidates))
    return chance.sample(rows, min(tests, len(rows)))


def within(asker: Asker, rows: Sequence[Row], steps: int) -> set[Row]:
    """The rows on which the program ends within a limit."""
    return set(asker.kills(rows, [FEW_MUTANTS], steps)) if steps > 0 else set()


def killed_in(
    asker: Asker, proofs: Sequence[Proof], rows: Sequence[Row], steps: int
) -> tuple[list[Row], list[Killed]]:
    """The rows that were run, and the mutants that one of them kills, each with the first. A row that does not leave a
    mutant the steps which its proof needs may kill it."""
    if not rows:
        return [], []
    kills = asker.kills(rows, asker.ops_of(asker.whole), steps)
    spares = {proof.spare for proof in proofs} - {0}
    fits = {0: set(kills), **{spare: within(asker, list(kills), steps - spare) for spare in spares}}
    killed: dict[int, Killed] = {}
    for row, mask in kills.items():
        for number, proof in enumerate(proofs):
            if mask >> number & 1 and row in fits[proof.spare]:
                killed.setdefault(number, Killed(proof, row, steps))
    return list(kills), list(killed.values())


def tried(programs: Programs, case: Case) -> Tried:
    """Asks both programs."""
    job = json.dumps({"source": case.source}).encode()
    try:
        listed = asked_list(programs.mothra, [], job)[1]
        answer = answer_of(programs, job)
    except Fault as fault:
        return Tried(case, 0, Answer([]), refused=str(fault))
    proofs = answer.proofs
    assert_listed(proofs, listed)
    if not proofs or not read_unit(case.source)[1]:
        return Tried(case, len(listed), answer)
    printed, chance = asked_print(programs.mothra, job), Random(f"{programs.seed} {case.name}")
    asker = asker_of(case, printed, proofs, programs.mothra)
    made, small = fitting_rows(case, asker, printed, programs.tests, chance), chance.choice(SMALL)
    led = [row for row in led_rows(answer, programs.tests, chance) if row not in made]
    tests, killed = killed_in(asker, proofs, [*made, *led], STEPS)
    more = killed_in(asker, proofs, [*made[:FEW], *led[:FEW]], small)[1]
    known = {each.proof for each in killed}
    every = [*killed, *(each for each in more if each.proof not in known)]
    return Tried(case, len(listed), answer, tests, set(led), every)


def line_on(what: str, every: Sequence[Tried]) -> str:
    """A line on some programs."""
    mutants, led = sum(each.mutants for each in every), sum(row in each.led for each in every for row in each.tests)
    spares = [proof.spare for each in every for proof in each.answer.proofs]
    unfinished, killed = sum(each.answer.unfinished for each in every), sum(len(each.killed) for each in every)
    spared = f"{len(spares) - spares.count(0)} with steps to spare ({max(spares, default=0)} at most)"
    proved = f"{len(spares)} proved, {spared}, {unfinished} not finished"
    tests = f"{plural(sum(len(each.tests) for each in every), 'test')} ({led} by failed proofs)"
    return f"{what}: {mutants} mutants, {proved}, {tests}, {killed} killed"


def line_on_made(every: Sequence[Tried]) -> str:
    """The line on programs that were made: also how many have proofs and no test, and how many were given up."""
    without = sum(not each.tests for each in every if each.answer.proofs)
    given_up = sum(not each.answer.proofs for each in every if each.answer.unfinished)
    return f"{line_on(plural(len(every), 'made program'), every)}, {without} without a test, {given_up} given up"


def faults_of(case: Tried) -> Iterator[str]:
    """What is wrong with a program, and its source where it was made."""
    if case.refused:
        yield f"{case.case.name}: {case.refused}"
    for each in case.killed:
        yield f"{case.case.name}: {each.text()}{LED if each.test in case.led else ''}"
    if case.case.is_made and (case.killed or case.refused):
        yield case.case.source.rstrip("\n")


def examples() -> list[Path]:
    """The programs of the examples that are in the subset."""
    return sorted(path for path in (ROOT / "examples").glob("*.f") if path.with_suffix(".report").exists())


def made_of(count: int, seed: int) -> list[Case]:
    return [Case(f"program {number}", program_of(number, seed), True) for number in range(1, count + 1)]


def programs_of(given: argparse.Namespace, equivalents: str) -> Programs:
    return Programs(given.mothra, equivalents, min(given.tests, TESTS), given.seed, given.rows)


def add_choices(parser: argparse.ArgumentParser, programs: int) -> None:
    """Adds the options of a sweep. Where nothing is said it makes so many programs."""
    text = f"how many programs are made ({programs})"
    parser.add_argument("--programs", metavar="N", type=int, default=programs, help=text)
    parser.add_argument("--seed", metavar="S", type=number_from_1, default=SEED, help=f"where chance begins ({SEED})")
    text = f"how many tests of each are made at most, and how many rows of failed proofs are tried ({TESTS})"
    parser.add_argument("--tests", metavar="N", type=number_from_1, default=TESTS, help=text)
    text = f"how many rows equivalents writes for each mutant that it does not prove, 0 for none ({ROWS})"
    parser.add_argument("--rows", metavar="N", type=int, default=ROWS, help=text)
    parser.add_argument("--jobs", metavar="N", type=number_from_1, default=processors(), help="how many at a time")


def add_words(parser: argparse.ArgumentParser) -> None:
    parser.add_argument("mothra", metavar="MOTHRA", type=whole_path)
    parser.add_argument("equivalents", metavar="EQUIVALENTS", type=whole_path)
    parser.add_argument("files", metavar="PROGRAM.f", nargs="*", type=Path, help="programs, else the examples")
    add_choices(parser, PROGRAMS)


def run(given: argparse.Namespace, name: str) -> int:
    programs = programs_of(given, given.equivalents)
    files = [Case(path.name, decoded(path.read_bytes())) for path in given.files or examples()]
    made = made_of(given.programs, given.seed)
    faults: list[str] = []
    with ThreadPoolExecutor(given.jobs) as pool:
        for case in pool.map(partial(tried, programs), files):
            print(line_on(case.case.name, [case]), flush=True)
            faults += faults_of(case)
        results = list(pool.map(partial(tried, programs), made))
    if results:
        print(line_on_made(results))
    faults += [line for case in results for line in faults_of(case)]
    print("\n".join(faults) or "no mutant is killed that is proved equivalent")
    return FAULT if faults else SUCCESS
