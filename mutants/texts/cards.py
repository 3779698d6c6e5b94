"""The statements of a source in fixed form, each with the places of its characters in the source."""

from functools import lru_cache
from itertools import chain
from typing import NamedTuple

from mutants.texts.parentheses import closing

# The line and the column of a character, both from 1.
Place = tuple[int, int]


class Card(NamedTuple):
    """A statement: the number of its initial line, its label ("" where it has none), its text in upper case without
    blanks, and the place of each character of the text."""

    line: int
    label: str
    text: str
    places: tuple[Place, ...]


LETTERS = str.maketrans("abcdefghijklmnopqrstuvwxyz", "ABCDEFGHIJKLMNOPQRSTUVWXYZ")


def source_lines(source: str) -> list[str]:
    """The lines of a source: cut at LF, without a CR right before it. An empty rest after the last LF is no line."""
    lines = source.split("\n")
    if not lines[-1]:
        lines.pop()
    return [line.removesuffix("\r") for line in lines]


def is_comment(line: str) -> bool:
    return line[:1] in ("C", "c", "*") or not line[:72].strip(" ")


def is_continuation(line: str) -> bool:
    return not is_comment(line) and line[5:6] not in ("", " ", "0")


def statement_field(number: int, line: str) -> tuple[str, tuple[Place, ...]]:
    """The characters of columns 7 to 72 that are no blanks, and the place of each."""
    kept = [(character, (number, column)) for column, character in enumerate(line[6:72], 7) if character != " "]
    return "".join(character for character, _ in kept), tuple(place for _, place in kept)


def card_of(lines: list[tuple[int, str]]) -> Card:
    """The statement of an initial line and its continuation lines, each given with its number."""
    fields = [statement_field(number, line) for number, line in lines]
    number, first = lines[0]
    places = tuple(chain.from_iterable(places for _, places in fields))
    return Card(number, first[:5].replace(" ", ""), "".join(text for text, _ in fields), places)


@lru_cache(maxsize=8)
def all_cards(source: str) -> tuple[Card, ...]:
    groups: list[list[tuple[int, str]]] = []
    for number, line in enumerate(source_lines(source.translate(LETTERS)), 1):
        if is_comment(line):
            continue
        if not is_continuation(line):
            groups.append([(number, line)])
        elif groups:
            groups[-1].append((number, line))
    return tuple(map(card_of, groups))


def cards_of(source: str) -> list[Card]:
    """The statements of a source in fixed form. A continuation line with nothing to continue is left out."""
    return list(all_cards(source))


def last_lines(source: str) -> dict[int, int]:
    """The number of the last line of each statement, by the number of its initial line."""
    ends: dict[int, int] = {}
    initial = 0
    for number, line in enumerate(source_lines(source), 1):
        if is_comment(line):
            continue
        initial = initial if is_continuation(line) else number
        ends[initial] = number
    # A continuation line with nothing to continue is of no statement.
    ends.pop(0, None)
    return ends


def action_at(text: str) -> int:
    """Where the statement in a logical IF begins; 0 for another statement."""
    if not text.startswith("IF("):
        return 0
    end = closing(text, len("IF"))
    return 0 if text[end + 1 : end + 2] in ("", "=") else end + 1


def lines_of(label: str, text: str) -> list[str]:
    """The lines of a statement in fixed form."""
    pieces = [text[at : at + 66] for at in range(0, len(text), 66)]
    return [(f"{label:>5} " if at == 0 else "     +") + piece for at, piece in enumerate(pieces)]
