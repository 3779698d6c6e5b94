"""What a check is asked for by the words of a call, read before anything is run; check and suggest share it."""

import argparse
from typing import NamedTuple

from mutants.checks.checking import Asked, Checked, Given, check, words_of_proofs
from mutants.checks.running import Means
from mutants.declarations.files import NONE_MEANT, Meant
from mutants.declarations.proving import Prover, prover_of
from mutants.declarations.said import Said
from mutants.jobs.expecting import Expected, expected_in_file
from mutants.jobs.making import Made, made_of, meant_for, wish_of
from mutants.program.calling import Fault
from mutants.program.finding import find_program
from mutants.texts.jobs import Job
from mutants.texts.proofs import Answer
from mutants.words import tell_remarks


class Start(NamedTuple):
    """The program and its table, what is asked about them, the job, what is known beside it, what is expected of the
    program, and what it is run with."""

    made: Made
    asked: Asked
    job: Job
    said: Said
    expected: Expected
    means: Means
    prover: Prover

    def checked(self, name: str) -> Checked:
        """The check."""
        checked = check(self.asked, Given(self.job, self.said, self.expected), self.means, name, self.prover)
        return checked._replace(file=self.made.source.file)

    def answer(self, job: Job, seconds: float | None) -> Answer:
        """What the prover says of the program with other tests, within so many seconds."""
        return self.prover._replace(seconds=seconds).proved(words_of_proofs(self.asked, self.means), job)


def expected_of(given: argparse.Namespace, made: Made) -> Expected:
    """What is expected of each test: what a file says comes before the column of the table."""
    if not made.table:
        return Expected(given.tests, {})
    if given.expect:
        return expected_in_file(given.expect, len(made.suite))
    return Expected(given.tests, made.table.expected)


def declared_of(given: argparse.Namespace, made: Made, means: Means) -> Meant:
    """What is declared. Where the source has a fault, nothing: the check reports the fault."""
    try:
        return meant_for(
            made, given.program, given.equivalent, lambda: means.program, looks_beside=not given.undeclared
        )
    except Fault:
        return NONE_MEANT


def means_of(given: argparse.Namespace) -> Means:
    # With other machines the word is one that each of them knows.
    program = find_program(given.mothra)
    remote = given.mothra or program
    return Means(program, given.steps, given.workers, given.jobs, given.sshlogin, remote, given.anew)


def start_of(given: argparse.Namespace, name: str) -> Start:
    """Reads all that the words name. Warnings have the name of the command in front."""
    wish = wish_of(given)
    made = made_of(given.program, given.tests, wish)
    expected, means, prover = expected_of(given, made), means_of(given), prover_of(given)
    meant = declared_of(given, made, means)
    remarks = made.remarks + meant.remarks
    tell_remarks(name, remarks)
    chosen = given.ops, given.without or [], given.lines, given.changed
    asked = Asked(given.program, given.tests, *chosen, wish, given.since)
    job = Job(made.source.text, made.suite, meant.names)
    said = Said(made.source.shown, meant.reasons, remarks, titles=made.titles)
    return Start(made, asked, job, said, expected, means, prover)
