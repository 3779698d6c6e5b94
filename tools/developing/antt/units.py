"""The definitions of a file of antt: a signature with its cases, a record, a family, or a block of several of these."""

import re
from collections.abc import Iterator, Sequence
from typing import NamedTuple

from developing.antt.uses import uses_in

MARKS = r"(?:(?:pattern|unfoldable|abbrev|axiom|pub) )*"
BLOCK = re.compile(rf"{MARKS}(?:mutual|module _.*)$")
FAMILY = re.compile(rf"{MARKS}(data|record) (\S+)")
SIGNATURE = re.compile(rf"{MARKS}(?:ruleset )?(\S+)(?: \{{[^}}]*\}})? :(?= |$)")
FIXITY = re.compile(r"infix[lr]? ")
# The parts of a family: the names of its cases, and what is derived from it.
CASES = re.compile(r"  (?!--)(\S+(?: \S+)*?) :(?= |$)")
DERIVED = re.compile(r"  deriving \S+ as (\S+)")
HEAD = re.compile(r"(?:pub )?mod ")


class Unit(NamedTuple):
    """A definition, or a block of them: its names, those of the cases of its families, its place, and its lines with
    the comment above it."""

    names: list[str]
    cases: list[str]
    start: int
    lines: list[str]

    def lines_of_text(self) -> int:
        """Its lines without the empty ones."""
        return sum(1 for line in self.lines if line.strip())


def is_comment(line: str) -> bool:
    return line.startswith("--")


def names_of(lines: Sequence[str]) -> tuple[list[str], list[str]]:
    """The names that the lines of a definition give, and those of the cases of its families."""
    body = [line for line in lines if line.strip() and not is_comment(line) and not FIXITY.match(line)]
    if not body:
        return [], []
    if BLOCK.match(body[0]):
        inner = list(units_of([line.removeprefix("  ") for line in body[1:]], 0))
        return [name for unit in inner for name in unit.names], [name for unit in inner for name in unit.cases]
    family = FAMILY.match(body[0])
    if not family:
        return [match[1] for match in [SIGNATURE.match(body[0])] if match], []
    derived = [match[1] for match in map(DERIVED.match, body[1:]) if match]
    cases = [match[1] for match in map(CASES.match, body[1:]) if match] if family[1] == "data" else []
    return [family[2], *derived], [name for names in cases for name in names.split()]


def starts_in(lines: Sequence[str]) -> Iterator[int]:
    """Where definitions begin: at the comments above them. A comment above a case belongs to the definition of the
    case."""
    comment: int | None = None
    is_fixed = False
    for at, line in enumerate(lines):
        if is_comment(line):
            comment = at if comment is None else comment
        elif line.strip() and not line.startswith(" "):
            if not is_fixed and any(kind.match(line) for kind in (BLOCK, FAMILY, SIGNATURE, FIXITY)):
                yield at if comment is None else comment
            is_fixed, comment = FIXITY.match(line) is not None, None


def units_of(lines: Sequence[str], first: int) -> Iterator[Unit]:
    """The definitions in the lines of a text, from the line `first` on."""
    starts = [first + at for at in starts_in(lines[first:])]
    for start, end in zip(starts, [*starts[1:], len(lines)]):
        block = list(lines[start:end])
        while block and not block[-1].strip():
            block.pop()
        yield Unit(*names_of(block), start, block)


def units_in(text: str) -> list[Unit]:
    """The definitions of a file, in order. They come after its comment, its imports and its modules."""
    lines = text.split("\n")
    heads = [at + 1 for at, line in enumerate(lines) if HEAD.match(line)]
    heads += [text.count("\n", 0, use.end) + 1 for use in uses_in(text) if not use.indent]
    empty = [at + 1 for at, line in enumerate(lines) if not line.strip()]
    return list(units_of(lines, max(heads) if heads else empty[0] if empty and is_comment(lines[0]) else 0))
