"""Plant faults in the proofs of equivalence, and see that the sweep notices each.

    tools/planted-faults [OPTION..] MOTHRA [NAME|NAME/EDIT..]

A fault is a wrong body, as tools/edits tries it: one of those that are named, or all of a crate; else some of different
kinds. Each is put into a copy of the crates, of which `rt try` builds the program equivalents without a proof, in some
minutes. This one takes part in tools/equivalents-sweep, with N (100) programs made by chance, up to the first in which
a mutant is killed that it proves equivalent: there the fault is noticed.

There is a line for each fault: how many such mutants are killed, how many of these by rows of failed proofs alone, and
the first of them. The exit status is 1 where a fault is not noticed.
"""

import argparse
import shutil
import tempfile
from collections.abc import Sequence
from concurrent.futures import ThreadPoolExecutor
from functools import partial
from pathlib import Path

from developing.antt.crates import read_crates
from developing.edits import read_edit, wanted_edits
from developing.equivalents_sweep import Case, Programs, Tried, add_choices, faults_of, line_on, made_of, programs_of
from developing.equivalents_sweep import tried
from mutants.english import plural
from mutants.program.programs import EQUIVALENTS
from mutants.program.roots import ROOT
from mutants.program.trying import build
from mutants.program.unproved import JOB, TRIALS
from mutants.statuses import FAULT, SUCCESS
from mutants.words import whole_path

PROGRAMS = 100
# Of each of these the mutant is not asked something, or two things are taken for one.
FAULTS = (
    "f77_symbolic/overflow_not_asked",
    "f77_symbolic/divisor_may_be_zero",
    "f77_symbolic/first_dummy_not_compared",
    "f77_symbolic/places_not_compared",
    "f77_symbolic/turns_not_compared",
    "f77_terms/two_atoms_for_one",
)
# What a build reads beside the crates.
FILES = ("crates.txt", "HANDLES")


def built(edit: Path, folder: Path) -> Path:
    """The program equivalents of a copy of the crates with a fault in it, in a folder of its own."""
    shutil.copytree(ROOT / "crates", folder / "crates", ignore=shutil.ignore_patterns("out"))
    for file in FILES:
        shutil.copy(ROOT / file, folder)
    crate = folder / "crates" / edit.parent.parent.name
    for name, text in read_edit(edit, crate).items():
        (crate / name).write_text(text, encoding="utf-8")
    program = folder / EQUIVALENTS.name
    build(folder / "crates" / EQUIVALENTS.name, program, ["--", *TRIALS[EQUIVALENTS.name][0]], JOB)
    return program


def swept(programs: Programs, cases: Sequence[Case], jobs: int) -> list[Tried]:
    """The sweep of these programs in order, up to the first in which a mutant is killed."""
    every: list[Tried] = []
    with ThreadPoolExecutor(jobs) as pool:
        for case in pool.map(partial(tried, programs), cases):
            every.append(case)
            if case.killed:
                pool.shutdown(cancel_futures=True)
                break
    return every


def said_of(every: Sequence[Tried]) -> tuple[bool, str]:
    """Whether a sweep notices a fault, and what is said of it."""
    last, count = every[-1], plural(len(every), "program")
    if not last.killed:
        return False, f"NOT NOTICED: {line_on(count, every)}"
    killed = f"{len(last.killed)} killed of {len(last.answer.proofs)} proved"
    led = f"{len(last.killed_by_led())} by rows of failed proofs alone"
    return True, f"noticed in {count}: {killed}, {led}; {next(faults_of(last))}"


def planted(edit: Path, cases: Sequence[Case], given: argparse.Namespace) -> tuple[bool, str]:
    """Whether the sweep notices a fault, and what is said of it."""
    with tempfile.TemporaryDirectory(prefix="planted-") as folder:
        try:
            program = built(edit, Path(folder))
        except ValueError as fault:
            return False, f"BAD EDIT: {fault}"
        return said_of(swept(programs_of(given, str(program)), cases, given.jobs))


def add_words(parser: argparse.ArgumentParser) -> None:
    parser.add_argument("mothra", metavar="MOTHRA", type=whole_path)
    parser.add_argument("names", metavar="NAME", nargs="*", help="a crate, or an edit as NAME/EDIT; else some")
    add_choices(parser, PROGRAMS)


def run(given: argparse.Namespace, name: str) -> int:
    edits = wanted_edits(read_crates(ROOT), given.names or FAULTS, True)
    cases = made_of(given.programs, given.seed)
    noticed = []
    for crate, paths in edits.items():
        for path in paths:
            is_noticed, said = planted(path, cases, given)
            print(f"{crate}/{path.stem}: {said}", flush=True)
            noticed.append(is_noticed)
    print(f"{sum(noticed)} noticed, {len(noticed) - sum(noticed)} not")
    return SUCCESS if all(noticed) else FAULT
