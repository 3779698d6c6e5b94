"""What the texts that mothra writes have in common: whole lines, numbers, and lines that name a mutant.

Where a text is not what it should be, or is cut short, ValueError has one line that says so. So no text is ever read in
part.
"""

import re
from collections.abc import Iterable, Mapping
from typing import NamedTuple, Protocol

NUMBER = r"(0|[1-9]\d*)"
MUTANT = re.compile(rf"([A-Z]{{3}}) {NUMBER} {NUMBER} LINE {NUMBER} (.+)")


class Mutant(NamedTuple):
    """A mutant: its operator, its number in the list, its number in the whole list, its line, and the changed
    statement."""

    op: str
    number: int
    place: int
    line: int
    text: str


class Named(Protocol):
    """A name of a mutant: of a mutant of a list, or of a row of a report."""

    @property
    def op(self) -> str: ...

    @property
    def number(self) -> int: ...

    @property
    def place(self) -> int: ...


def lines_of_text(text: str, what: str) -> list[str]:
    """The lines of a whole text; `what` is the name of the text in an error."""
    if text.startswith(("FAULT ", "BAD ")):
        raise ValueError(f"{what} is a fault: {text.splitlines()[0]}")
    if not text.endswith("\n"):
        raise ValueError(f"{what} is cut short: its last line has no end")
    return text[:-1].split("\n")


def assert_numbered(mutants: Iterable[Named], totals: Mapping[str, int], what: str) -> None:
    """Refuses mutants unless each operator has as many as the totals say, numbered from 1, in the order of the
    operators."""
    wanted = [(op, number) for op, total in totals.items() for number in range(1, total + 1)]
    if [(mutant.op, mutant.number) for mutant in mutants] != wanted:
        raise ValueError(f"{what} is cut short or mixed: its mutants are not those of its counts")


def mutant_of(line: str) -> Mutant | None:
    """The mutant that a line names, or None."""
    match = MUTANT.fullmatch(line)
    return Mutant(match[1], int(match[2]), int(match[3]), int(match[4]), match[5]) if match else None
