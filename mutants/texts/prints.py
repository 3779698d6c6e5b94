"""Printed programs: what `mothra print` writes."""

import re
from collections.abc import Sequence

from mutants.texts.cards import cards_of
from mutants.texts.lines import lines_of_text


def read_print(text: str) -> list[str]:
    """The text of each statement of a printed program, with its blanks."""
    statements: list[str] = []
    for line in lines_of_text(text, "the printed program"):
        if line.startswith("     +") and statements:
            statements[-1] += line[6:]
        else:
            statements.append(line[6:])
    if statements[-1] != "END":
        raise ValueError("the printed program is cut short: its last line is not END")
    return statements


def letters(statement: str) -> str:
    return re.sub("[^A-Z]", "", statement)


def statements_by_line(source: str, printed: Sequence[str]) -> dict[int, str]:
    """The printed text of each statement, by the number of its initial line."""
    cards = cards_of(source)
    # Printing changes blanks, parentheses, commas and numbers, and no letter.
    if [letters(card.text) for card in cards] != [letters(statement) for statement in printed]:
        raise ValueError("the printed program and the source of the job have not the same statements")
    return {card.line: statement for card, statement in zip(cards, printed)}
