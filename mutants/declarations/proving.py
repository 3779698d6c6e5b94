"""The program equivalents, asked which mutants of a program no test can kill."""

import argparse
from collections.abc import Iterable, Sequence
from typing import NamedTuple

from mutants.declarations.kept import answered
from mutants.declarations.proofs import Proofs, assert_listed, proofs_of
from mutants.program.calling import Fault, plain_answer, read_as
from mutants.program.finding import add_equivalents_option, find_equivalents
from mutants.program.programs import EQUIVALENTS
from mutants.program.unproved import remark_on_proofs
from mutants.statuses import WORDS
from mutants.texts.batches import batch_text, batches
from mutants.texts.jobs import Job
from mutants.texts.lines import Mutant
from mutants.texts.proofs import Answer, read_proofs

NAME = EQUIVALENTS.name
NOT_FOUND = f"the program {NAME} is not found"
NOT_WANTED = "--no-proofs was given"


def add_proofs_switch(parser: argparse.ArgumentParser) -> None:
    parser.add_argument("--no-proofs", action="store_true", help=f"do not ask {NAME} which mutants are equivalent")
    parser.add_argument("--anew", action="store_true", help="ask the programs also what they have answered before")


def add_proof_options(parser: argparse.ArgumentParser) -> None:
    """Adds the options that say whether proofs are asked for, and of which program."""
    add_equivalents_option(parser)
    add_proofs_switch(parser)


def with_ops(words: Sequence[str], ops: Iterable[str]) -> list[str]:
    """The words with these operators, instead of those that they have."""
    at = words.index("--ops") if "--ops" in words else len(words)
    return [*words[:at], *words[at + 2 :], "--ops", ",".join(ops)]


class Prover(NamedTuple):
    """The program equivalents, or the reason why it is not asked. Without either there are no proofs, and no reason is
    given. It is asked for `rows` tests at most of each mutant that it does not prove, and a call may take `seconds`."""

    program: str = ""
    not_asked: str = ""
    anew: bool = False
    rows: int = 0
    seconds: float | None = None

    def asked(self, words: Sequence[str], job: bytes) -> Answer:
        """The answer of the program to a job; the words are its options. A program that refuses to give rows is asked
        without."""
        asked = [*words, *(["--rows", str(self.rows)] if self.rows else [])]

        def ask() -> str:
            return plain_answer(NAME, self.program, asked, job, self.seconds)

        try:
            text = answered(self.program, asked, job, ask, self.anew)
        except Fault as fault:
            if fault.status != WORDS or not self.rows:
                raise
            return self._replace(rows=0).asked(words, job)
        return read_as(NAME, read_proofs, text)

    def proved(self, words: Sequence[str], job: Job) -> Answer:
        """What the program says of a source and its tests, of any number.

        Where there are more tests than a job takes, it is asked about the first ones, and of the others only about the
        operators that have mutants with steps to spare: each batch has to leave these.
        """
        plain = Job(job.source, job.suite)
        first, *others = batches(plain)
        answer = self.asked(words, batch_text(plain, *first))
        ops = list(dict.fromkeys(proof.mutant.op for proof in answer.proofs if proof.spare))
        for ends in others if ops else []:
            kept = set(self._replace(rows=0).asked(with_ops(words, ops), batch_text(plain, *ends)).proofs)
            answer = answer._replace(proofs=[proof for proof in answer.proofs if not proof.spare or proof in kept])
        return answer

    def proofs(self, words: Sequence[str], job: Job, listed: Iterable[Mutant]) -> Proofs:
        """What is proved of the mutants of a job: those that mothra lists for the same words, without the limit on
        steps. A job that is refused has no proofs."""
        declared = frozenset(name for name in job.equivalent if isinstance(name, str))
        if not self.program:
            return Proofs(declared=declared, not_asked=self.not_asked)
        try:
            answer = self.proved(words, job)
        except Fault as fault:
            if fault.status == WORDS:
                raise
            return Proofs(declared=declared, not_asked=f"{NAME} answers {fault.line}")
        assert_listed(answer.proofs, listed)
        return proofs_of(answer, declared, remark_on_proofs(self.program), len(job.suite))


NO_PROVER = Prover()


def prover_of(given: argparse.Namespace) -> Prover:
    """The prover that the words ask for."""
    if given.no_proofs:
        return Prover(not_asked=NOT_WANTED)
    program = find_equivalents(given.equivalents)
    return Prover(program, anew=given.anew) if program else Prover(not_asked=NOT_FOUND)
