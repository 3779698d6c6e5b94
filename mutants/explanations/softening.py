"""Statements are changed into statements of the subset, so that what depends on them can stay in a copy of the source:
declarations, ends, names that are too long."""

import re

from mutants.explanations.names import FUNCTIONS, with_plain_type
from mutants.explanations.pieces import without_remark
from mutants.explanations.statements import long_name_in
from mutants.jobs.sizes import bounds_of

# A first value in a type statement.
VALUE = re.compile(r"=[-+]?[A-Z0-9.]+|/[^/]*/")
DECLARATION = re.compile(r"(INTEGER|LOGICAL|DIMENSION)(?=[A-Z])")
HEAD = re.compile(r".*?(?:SUBROUTINE|FUNCTION|PROGRAM)([A-Z][A-Z0-9_]*)(?:\(([A-Z0-9_,*]*)\))?.*")
NAME = re.compile(r"[A-Z][A-Z0-9]{0,5}")


def softened(text: str) -> str:
    """The statement, changed: a declaration has a type of the subset and bounds that are numbers, an END has no words
    after it, and no statement has a comment at its end."""
    text = without_remark(text)[0]
    text = with_plain_type(text)
    text = VALUE.sub("", text) if re.match(r"(INTEGER|LOGICAL)(?=[A-Z])", text) else text
    for bound in reversed([bound for bound in bounds_of(text) if not bound.text.isdecimal()]):
        text = f"{text[: bound.begin]}9{text[bound.end :]}"
    return "END" if re.match(r"END(SUBROUTINE|FUNCTION|PROGRAM)", text) else text


def shortened(text: str) -> str:
    """A statement whose names are cut where they are too long. Names with the same beginning become the same name."""
    while place := long_name_in(text):
        text = text[: place[0] + 6] + text[place[1] :]
    return text


def as_head(text: str) -> str | None:
    """A SUBROUTINE statement in the place of one that begins another unit, or that is outside the subset."""
    head = HEAD.fullmatch(text)
    if not head:
        return None
    names = [name for name in (head[2] or "").split(",") if NAME.fullmatch(name)]
    return f"SUBROUTINE {head[1].replace('_', '')[:6]}({','.join(names)})"


def items_of(text: str) -> list[str]:
    """The items of a declaration; none of another statement."""
    front = DECLARATION.match(text)
    return re.findall(r"[A-Z][A-Z0-9]*(?:\([^()]*\))?", text[front.end() :]) if front else []


def without_item(text: str, name: str) -> str:
    """A declaration without a name; empty where it declares no other."""
    front = DECLARATION.match(text)
    left = [item for item in items_of(text) if item.partition("(")[0] != name]
    return f"{front[1]}{','.join(left)}" if front and left else ""


def declared_twice(name: str, texts: list[str]) -> int | None:
    """The place of the last declaration of a name that is declared twice, or that is a function."""
    places = [at for at, text in enumerate(texts) if name in [item.partition("(")[0] for item in items_of(text)]]
    return places[-1] if len(places) > (name not in FUNCTIONS) else None
