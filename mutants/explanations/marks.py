"""Where in a source a fault lies: marks under its lines, and notes."""

from collections.abc import Callable, Iterable, Sequence

from mutants.explanations.spans import KEYWORDS, Mark, Marked, find_name, label_marks, span, whole
from mutants.explanations.statements import OF_CARDS
from mutants.texts.cards import Card, cards_of, source_lines


def bytes_mark(line: str, number: int, is_wrong: Callable[[str], bool]) -> Marked:
    """The first character of columns 1 to 72, counted in bytes, that is wrong."""
    width = 0
    for column, character in enumerate(line, 1):
        if width >= 72:
            break
        if is_wrong(character):
            return [Mark(number, column, column)], [f"Column {column} holds the character U+{ord(character):04X}."]
        width += len(character.encode("utf-8", "replace"))
    return [Mark(number, 1, max(len(line), 1))], []


def form_marks(code: str, number: int, lines: Sequence[str]) -> Marked:
    """Marks of the faults of lines."""
    line = lines[number - 1]
    if code == "F3":
        return bytes_mark(line, number, lambda c: not " " <= c <= "~" and c != "\t")
    if code == "F4":
        return bytes_mark(line, number, lambda c: c == "\t")
    if code == "F5":
        return [Mark(number, 1, min(max(len(line), 1), 5))], []
    return [Mark(number, 6, 6)], []


def name_marks(code: str, name: str, cards: Sequence[Card]) -> list[Mark]:
    """Where a name stands: its first place, or, where it is declared twice, those of its declarations."""
    begins = [(card, find_name(card.text, name)) for card in cards]
    marks = [(card, span(card, at, at + len(name))) for card, at in begins if at is not None]
    if code == "C3":
        declared = [marked for card, marked in marks if card.text.startswith(tuple(KEYWORDS[:4]))]
        return sum(declared, []) or sum([marked for _, marked in marks[:1]], [])
    return marks[0][1] if marks else []


def behind_72(lines: Sequence[str], marks: Iterable[Mark]) -> list[str]:
    """A note where a marked line goes on after column 72."""
    cut = sorted({mark.line for mark in marks if lines[mark.line - 1][72:].strip(" ")})
    return [f"Of line {line} all behind column 72 is not read: {lines[line - 1][72:].strip()[:40]}" for line in cut]


def line_marks(code: str, number: int, lines: Sequence[str], cards: Sequence[Card]) -> Marked:
    """The marks of a fault that names a line, and notes on them."""
    if not 0 < number <= len(lines):
        raise ValueError(f"the source of the job has no line {number}: the fault is of another job")
    if code.startswith("F"):
        return form_marks(code, number, lines)
    card = next((card for card in cards if card.line == number), None)
    if card is None:
        raise ValueError(f"no statement begins on line {number} of the source: the fault is of another job")
    return OF_CARDS[code](card, cards) if code in OF_CARDS else (whole(card), [])


def places(code: str, kind: str, detail: str, source: str) -> Marked:
    """The marks of a fault in a source, and notes on them."""
    lines, cards = source_lines(source), cards_of(source)
    marks: list[Mark] = []
    notes: list[str] = []
    if kind == "line":
        marks, notes = line_marks(code, int(detail), lines, cards)
    elif kind == "name":
        marks = name_marks(code, detail, cards)
    elif kind == "label":
        marks = label_marks(cards, int(detail))
    elif code in ("S7", "S8") and cards:
        marks = whole(cards[0 if code == "S7" else -1])
    return marks, notes + behind_72(lines, marks)


def shown(source: str, marks: Sequence[Mark]) -> list[str]:
    """The marked lines with their marks under them; what cannot be seen is a question mark."""
    lines = source_lines(source)
    parts: list[str] = []
    for number in sorted({mark.line for mark in marks}):
        line = "".join(c if c.isprintable() else "?" for c in lines[number - 1])
        under = [" "] * (max(mark.last for mark in marks if mark.line == number))
        for mark in marks:
            if mark.line == number:
                under[mark.first - 1 : mark.last] = ["^"] * (mark.last - mark.first + 1)
        parts += [f"{number:>6} | {line}".rstrip(), f"       | {''.join(under)}"]
    return parts
