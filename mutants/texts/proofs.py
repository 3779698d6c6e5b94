"""Proofs of equivalence: what `equivalents` writes, read as values. Where it is asked for rows, they are read too, and
where the other proofs were given up."""

import json
import re
from collections.abc import Iterable, Sequence
from typing import Any, NamedTuple

from mutants.texts.lines import NUMBER, Mutant, lines_of_text, mutant_of

LINE = re.compile(r"(?:EQUIVALENT|SPARE ([1-9]\d*)) (.+)")
ROW = re.compile(rf"ROW ([A-Z]{{3}}) {NUMBER} {NUMBER} (\[.*\])")
LEFT = re.compile(rf"LEFT ([A-Z]{{3}}) {NUMBER} {NUMBER} AT {NUMBER} {NUMBER}(?: VALUES ([A-Z][A-Z0-9]{{0,5}}))?")
LAST = re.compile(rf"PROVED {NUMBER} OF {NUMBER}(?:, ([1-9]\d*) NOT FINISHED)?")


def meaning_of(spare: int) -> str:
    """What is proved of a mutant with so many steps to spare."""
    return f"equivalent with {spare} step{'s' * (spare > 1)} to spare" if spare else "equivalent"


class Proof(NamedTuple):
    """A mutant that is proved equivalent. Where it has steps to spare, so many it may take more than the program, and
    the proof holds only for the tests and the limit that it was asked for."""

    mutant: Mutant
    spare: int = 0


class Candidate(NamedTuple):
    """A test that may kill a mutant which is not proved, found where its proof failed. Only a run shows whether it
    does."""

    op: str
    number: int
    place: int
    test: list[Any]


class Left(NamedTuple):
    """A mutant whose proof was given up: the line where the program was then, the one where the mutant was, and the
    name of the variable or the array of which values were compared there, if any were."""

    op: str
    number: int
    place: int
    own: int
    other: int
    name: str | None = None

    def text(self) -> str:
        """In words, where the proof ends, and whether values may be the reason."""
        both = f"at line {self.own}"
        apart = f"where the program is at line {self.own} and the mutant at line {self.other}"
        values = f", and values of {self.name} may differ there" if self.name else ""
        return f"the proof ends {both if self.own == self.other else apart}{values}"


class Answer(NamedTuple):
    """The proofs, each of another mutant; how many mutants were left when the bound on work was met; tests that may
    kill others, where such were asked for; and where proofs of others were given up."""

    proofs: list[Proof]
    unfinished: int = 0
    candidates: list[Candidate] = []
    left: list[Left] = []


def proof_of(line: str) -> Proof:
    """The proof of a line."""
    match = LINE.fullmatch(line)
    mutant = mutant_of(match[2]) if match else None
    if not match or not mutant:
        raise ValueError(f"the proofs have a line that is none: {line[:60]}")
    return Proof(mutant, int(match[1] or 0))


def candidate_of(line: str) -> Candidate:
    """The test of a line that begins with ROW."""
    match = ROW.fullmatch(line)
    try:
        test = json.loads(match[4]) if match else None
    except (ValueError, RecursionError):
        test = None
    if not match or not is_test(test):
        raise ValueError(f"the proofs have a row that is none: {line[:60]}")
    return Candidate(match[1], int(match[2]), int(match[3]), test)


def is_test(values: Any) -> bool:
    """Whether this is a list of numbers, truth values, and arrays of one kind of these."""
    kinds = [set(map(type, value if isinstance(value, list) else [value])) for value in values or ()]
    return values is not None and all(kind in ({int}, {bool}) for kind in kinds)


def left_of(line: str) -> Left:
    """What a line that begins with LEFT says."""
    match = LEFT.fullmatch(line)
    if not match:
        raise ValueError(f"the proofs have a line LEFT that is none: {line[:60]}")
    return Left(match[1], int(match[2]), int(match[3]), int(match[4]), int(match[5]), match[6])


def assert_apart(proofs: Iterable[Proof], candidates: Iterable[Candidate], left: Iterable[Left]) -> None:
    """Refuses proofs that name a mutant twice, also as one whose proof was given up, or that name one for which there
    is a row."""
    proved = [proof.mutant[:3] for proof in proofs]
    names = [*proved, *(each[:3] for each in left)]
    if len(set(names)) < len(names):
        raise ValueError("the proofs name a mutant twice")
    if not set(proved).isdisjoint(candidate[:3] for candidate in candidates):
        raise ValueError("the proofs have a row of a mutant that they name")


def first_with(lines: Sequence[str], *fronts: str) -> int:
    """The number, from 0, of the first line that begins in one of these ways; without one, how many lines there are."""
    return next((at for at, line in enumerate(lines) if line.startswith(fronts)), len(lines))


def read_proofs(text: str) -> Answer:
    """The answer of a text: lines of proofs, behind them those of rows, then those that begin with LEFT, and the last
    line."""
    *lines, last = lines_of_text(text, "the text of the proofs")
    rows, end = first_with(lines, "ROW ", "LEFT "), first_with(lines, "LEFT ")
    proofs, counts = [proof_of(line) for line in lines[:rows]], LAST.fullmatch(last)
    candidates, left = [candidate_of(line) for line in lines[rows:end]], [left_of(line) for line in lines[end:]]
    if not counts or int(counts[1]) != len(proofs) or len(proofs) + int(counts[3] or 0) > int(counts[2]):
        raise ValueError("the proofs are cut short: the last line has not their number")
    assert_apart(proofs, candidates, left)
    return Answer(proofs, int(counts[3] or 0), candidates, left)
