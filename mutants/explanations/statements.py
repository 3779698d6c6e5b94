"""Where in a statement a fault lies: at which label, name, number or parenthesis."""

import re
from collections.abc import Callable, Sequence

from mutants.english import joined_words
from mutants.explanations.names import called_names, declared_arrays
from mutants.explanations.spans import (
    KEYWORDS, Marked, label_marks, label_value, labels_in, span, value_of, whole, without_operators,
)  # fmt: skip
from mutants.texts.cards import Card, action_at
from mutants.texts.parentheses import depths


def long_name_in(whole_text: str) -> tuple[int, int] | None:
    """Where the first name of more than six characters stands, without the keyword before it."""
    front = re.compile("|".join(KEYWORDS) + r"|DO\d+|GOTO")
    text = without_operators(whole_text)
    for match in re.finditer(r"[A-Z][A-Z0-9]*", text):
        word, begin = match[0], match.start()
        if begin in (0, action_at(text)) and word == "CONTINUE":
            continue
        keyword = front.match(word) if begin in (0, action_at(text)) else None
        begin += len(keyword[0]) if keyword else 0
        if match.end() - begin > 6 and text[begin].isalpha():
            return begin, match.end()
    return None


def long_name(card: Card) -> Marked:
    """The first name that is too long."""
    place = long_name_in(card.text)
    return span(card, *place) if place else whole(card), []


def large_number(card: Card) -> Marked:
    for number in re.finditer(r"(?<![A-Z0-9])\d+", card.text):
        if value_of(number[0]) > 2147483647:
            return span(card, number.start(), number.end()), []
    for value, begin, end in labels_in(card.text):
        if not 0 < value <= 99999 or end - begin > 5:
            return span(card, begin, end), []
    return whole(card), []


def deep_parenthesis(card: Card) -> Marked:
    lowest = 0
    for at, depth in enumerate(depths(card.text)):
        # A closing parenthesis does not count where none is open.
        lowest = min(lowest, depth)
        if depth - lowest > 40:
            return span(card, at, at + 1), ["Here the 41st parenthesis is opened."]
    return whole(card), []


def number_fault(card: Card, cards: Sequence[Card]) -> Marked:
    """Marks of the parentheses after names, where bounds, subscripts or arguments do not agree."""
    names = called_names(card.text, declared_arrays(other.text for other in cards))
    marks = [mark for name, at in names for mark in span(card, at, at + len(name))]
    return marks or whole(card), []


def missing_labels(card: Card, cards: Sequence[Card]) -> Marked:
    known = {value for value in map(label_value, cards) if value is not None}
    missing = [(begin, end) for value, begin, end in labels_in(card.text) if value not in known]
    note = f"Labels stand on the statements: {joined_words(sorted(known))}." if known else "No statement has a label."
    return [mark for place in missing for mark in span(card, *place)] or whole(card), [note]


def targets(card: Card, cards: Sequence[Card]) -> Marked:
    """The labels that the statement names, and the statements on which they stand."""
    labels = labels_in(card.text)
    marks = [mark for _, begin, end in labels for mark in span(card, begin, end)]
    return marks + [mark for value, _, _ in labels for mark in label_marks(cards, value)] or whole(card), []


def do_variable(card: Card, cards: Sequence[Card]) -> Marked:
    """The statement, and the last DO before it whose variable it sets."""
    text = card.text[action_at(card.text) :]
    name = re.match(r"(?:DO\d+,?)?([A-Z][A-Z0-9]*)=", text)
    if not name:
        return whole(card), []
    loops = [other for other in cards if other.line < card.line and re.match(rf"DO\d+,?{name[1]}=", other.text)]
    return (whole(loops[-1]) if loops else []) + whole(card), [f"The DO variable is {name[1]}."] if loops else []


OF_CARDS: dict[str, Callable[[Card, Sequence[Card]], Marked]] = {
    "S3": lambda card, cards: long_name(card),
    "S4": lambda card, cards: large_number(card),
    "S5": lambda card, cards: deep_parenthesis(card),
    "C5": number_fault,
    "C7": missing_labels,
    "C8": targets,
    "C9": targets,
    "C10": targets,
    "C12": do_variable,
}
