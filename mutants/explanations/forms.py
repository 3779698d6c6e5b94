"""Statements with words of the subset in another form, and lines that are no lines of a program."""

import re
from collections.abc import Iterator, Sequence

from mutants.explanations.habits import Seen
from mutants.texts.cards import Card, action_at
from mutants.texts.parentheses import closing

DECLARATION = re.compile(r"(INTEGER|LOGICAL|DIMENSION|DATA)(?=[A-Z])")
FIRST = re.compile(r"(SUBROUTINE|INTEGER|LOGICAL|DIMENSION)(?=[A-Z])")


def condition_of(text: str) -> tuple[str, str] | None:
    """The text in the parentheses of an IF, and the text after them; None for another statement."""
    front = re.match(r"(?:ELSE)?IF\(", text)
    if not front:
        return None
    end = closing(text, front.end() - 1)
    return (text[front.end() : end], text[end + 1 :]) if end < len(text) else None


def if_habits(text: str) -> Iterator[Seen]:
    """What is wrong with the form of an IF."""
    if re.match(r"(?:ELSE)?IF[^(=]+THEN$", text):
        yield Seen("IF without parentheses")
    parts = condition_of(text)
    if parts is None:
        return
    condition, rest = parts
    if re.search(r"(?<![=/<>])=(?![=>])", condition):
        yield Seen("assignment in a condition")
    if not rest:
        yield Seen("IF without THEN")
    elif re.match(r"THEN.", rest) or re.search(r"(?<=[A-Z0-9)])ELSE", rest):
        yield Seen("IF with THEN and more")
    elif re.match(r"IF\(|DO\d", rest):
        yield Seen("IF in an IF")


def data_habits(text: str) -> Iterator[Seen]:
    """Loops and elements in a DATA statement."""
    if re.match(r"DATA(\(|[A-Z][A-Z0-9]*\()", text):
        yield Seen("list in DATA")


def label_habits(card: Card) -> Iterator[Seen]:
    """A label that stands after column 6."""
    if re.match(r"\d+[A-Z]", card.text) and not card.label:
        yield Seen("label in column 7")


def late_habits(card: Card, cards: Sequence[Card]) -> Iterator[Seen]:
    """A declaration after executable statements or after DATA; a second SUBROUTINE."""
    declared = DECLARATION.match(card.text)
    if re.match("SUBROUTINE[A-Z]", card.text) and card.line > cards[0].line:
        yield Seen("second unit")
    if not declared or "=" in card.text:
        return
    front = FIRST if declared[1] != "DATA" else re.compile(rf"{FIRST.pattern}|DATA(?=[A-Z(])")
    before = next((other for other in cards if other.line < card.line and not front.match(other.text)), None)
    if before:
        yield Seen("late declaration", {"word": declared[1], "before": f"the statement of line {before.line}"})


def parenthesis_habits(text: str) -> Iterator[Seen]:
    opened, closed = text.count("("), text.count(")")
    if opened != closed:
        yield Seen("parentheses", {"opened": opened, "closed": closed})


def column_habits(card: Card, lines: Sequence[str]) -> Iterator[Seen]:
    """A continuation line that may not be meant as one: it has a letter or a ! in column 6."""
    for line in dict.fromkeys(line for line, _ in card.places):
        sign = lines[line - 1][5:6].upper()
        if line != card.line and sign == "!":
            yield Seen("comment behind !")
        elif line != card.line and sign.isalpha():
            yield Seen("column 6", {"line": line, "sign": sign})


def action_of(text: str) -> tuple[str, str]:
    """The text before the statement in a logical IF, and that statement; for another statement no text, and itself."""
    at = action_at(text)
    return text[:at], text[at:]


def line_habits(line: str) -> list[Seen]:
    """What a line is that has no label, but something else, in columns 1 to 5."""
    if line.lstrip(" ").startswith("!"):
        return [Seen("comment behind !")]
    if line.startswith("#"):
        return [Seen("line of a preprocessor")]
    if re.match(r"[Dd] |[Dd]\t", line):
        return [Seen("debugging line")]
    is_free = re.match(r"[A-Za-z]| {1,4}(?:[A-Za-z]{2}|[A-Za-z]\d* *[=(])", line)
    return [Seen("free form")] if is_free else []
