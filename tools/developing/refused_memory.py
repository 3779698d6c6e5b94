"""Refuse each allocation in turn, and count what comes of it.

    tools/refused-memory [--jobs N] [CRATE..]

Of the crate `mothra` the commands print, exec, list and run (two workers) are called on a small job each, once for each
allocation of the undisturbed call: that one is refused, alone, and in a second round with all behind it. Each call has
to give the undisturbed answer, or a fault of want of memory that this command may tell (of `run` also B2), or nothing
with status 1. Of a crate of tests the tests that are about refused memory are run so, and have to pass, but where there
was none for what the test itself is made of. Without a name it is mothra, and each crate that has such tests.

Programs are built by `rt try --fail-alloc`, unproved, in a minute or two a crate. How many allocations a call makes is
found by programs that stop at one. With threads that differs, so a few more are refused than were found.

There is a line for each call and round: how many calls gave which answer. The exit status is 1 where one gave another.
"""

import argparse
import re
import signal
import tempfile
from collections import Counter
from collections.abc import Iterator
from concurrent.futures import ThreadPoolExecutor
from pathlib import Path
from queue import Queue
from typing import Any

from developing.robustness.calls import Ended, answer_of, called
from developing.robustness.jobs import LOOP, SUM, job_of
from developing.robustness.refusing import FROM_THEN_ON, ONLY, STOPS, Refusing, build_refusing
from mutants.program.roots import ROOT
from mutants.statuses import FAULT, SUCCESS

CRATES = ROOT / "crates"
TEST = re.compile(r"\bfn \w*refused_memory")
CALLS: dict[str, tuple[list[str], list[Any], str]] = {
    "print": (SUM, [], "J1 F1 S1"),
    "exec --test 1": (LOOP, [[3, 0]], "J1 F1 S1 C1 N1"),
    "list": (LOOP, [[3, 0]], "J1 F1 S1 C1 O1"),
    "run": (SUM, [[2, 3, 0]], "J1 F1 S1 C1 O1 B1 B2"),
}
# The ways in which a program stops: by a trap, or by a check that reports it.
STOPPED = (-signal.SIGTRAP, -signal.SIGABRT)
# How many allocations a call with threads may make beyond those that were found.
SPARE = 8
# The answer of a test that ends with an error of its own and not by an assertion: it had no memory for its own data.
OWN_ERROR = 101
ROUNDS = {"alone": ONLY, "with all behind it": FROM_THEN_ON}


class Subject:
    """Words, the bytes that are given, and the answers that may come in the place of the undisturbed one."""

    def __init__(self, name: str, words: list[str], given: bytes, faults: list[str]) -> None:
        self.name, self.words, self.given, self.faults = name, words, given, faults

    def call(self, program: Refusing) -> Ended:
        return called([program.path, *self.words], self.given)

    def answer(self, program: Refusing, undisturbed: Ended) -> str:
        ended = self.call(program)
        if (ended.text, ended.status) == (undisturbed.text, undisturbed.status):
            return "undisturbed"
        answer = "the test itself had none" if ended.status == OWN_ERROR else answer_of(ended)
        return answer if answer in self.faults else f"BROKEN: {answer}"


def with_such_tests() -> list[str]:
    """The crates that have tests about refused memory, by their texts."""
    texts = {path: path.read_text(encoding="utf-8") for path in sorted(CRATES.glob("*/src/**/*.rt"))}
    return list(dict.fromkeys(path.parts[len(CRATES.parts)] for path, text in texts.items() if TEST.search(text)))


def commands() -> Iterator[Subject]:
    for words, (source, suite, faults) in CALLS.items():
        yield Subject(f"mothra {words}", words.split(), job_of(source, suite), [*faults.split(), "nothing"])


def tests_of(crate: str, program: Refusing) -> Iterator[Subject]:
    """The tests of a crate that are about refused memory. They pass, or have no memory for their own jobs."""
    names = called([program.path, "--list"], b"").text.decode().split()
    for name in names:
        if "refused_memory" in name.rpartition("::")[2]:
            yield Subject(f"{crate} {name.rstrip(':')}", [name.rstrip(":")], b"", ["the test itself had none"])


def reaches(subject: Subject, program: Refusing, number: int) -> bool:
    """Whether a call makes this many allocations: whether one of three calls stops there."""
    program.refuse(number, answer=STOPS)
    return any(subject.call(program).status in STOPPED for _ in range(3))


def last_of(subject: Subject, program: Refusing) -> int:
    """The number of the last allocation of a call."""
    over = 1
    while reaches(subject, program, over):
        over *= 2
    least = over // 2
    while over - least > 1:
        middle = (least + over) // 2
        if reaches(subject, program, middle):
            least = middle
        else:
            over = middle
    return least


def sweep(subject: Subject, copies: list[Refusing], last: int, jump: bytes, undisturbed: Ended) -> list[str]:
    """How many numbers gave which answer, and the first number that gave an answer which may not come."""
    free: Queue[Refusing] = Queue()
    for copy in copies:
        free.put(copy)

    def answer(number: int) -> str:
        program = free.get()
        program.refuse(number, jump)
        answer = subject.answer(program, undisturbed)
        free.put(program)
        return answer

    with ThreadPoolExecutor(len(copies)) as pool:
        return list(pool.map(answer, range(1, last + 1)))


def tell(subject: Subject, copies: list[Refusing]) -> bool:
    """Tries a call in both rounds, and prints the answers. The result says whether each answer may come."""
    copies[0].refuse(2**31 - 1)
    undisturbed = subject.call(copies[0])
    has_threads = any(word in subject.name for word in ("run", "workers"))
    last = last_of(subject, copies[0]) + SPARE * has_threads
    is_right = True
    for name, jump in ROUNDS.items():
        answers = sweep(subject, copies, last, jump, undisturbed)
        counts = ", ".join(f"{answer} {count}" for answer, count in sorted(Counter(answers).items()))
        print(f"{subject.name}: {last} allocations, each refused {name}: {counts}", flush=True)
        for number, answer in enumerate(answers, 1):
            if answer.startswith("BROKEN"):
                print(f"  allocation {number}: {answer}")
                is_right = False
    return is_right


def try_crate(crate: str, folder: Path, jobs: int) -> bool:
    kept = folder / f"{crate}.refusing"
    is_program = (CRATES / crate / "src" / "main.rt").exists()
    build_refusing(CRATES / crate, kept, ["--", "print"] if is_program else ["--test"], job_of(SUM))
    with tempfile.TemporaryDirectory() as work:
        copies = [Refusing(kept, Path(work) / f"{crate}.{number}") for number in range(jobs)]
        subjects = commands() if is_program else tests_of(crate, copies[0])
        return all([tell(subject, copies) for subject in subjects])


def add_words(parser: argparse.ArgumentParser) -> None:
    parser.add_argument("crates", metavar="CRATE", nargs="*")
    parser.add_argument("--jobs", type=int, default=2, help="how many calls run at a time (2)")


def run(given: argparse.Namespace, name: str) -> int:
    with tempfile.TemporaryDirectory() as folder:
        crates = given.crates or ["mothra", *with_such_tests()]
        is_right = all([try_crate(crate, Path(folder), given.jobs) for crate in crates])
    return SUCCESS if is_right else FAULT
