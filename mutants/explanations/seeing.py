"""Which habits of FORTRAN 77 and of later Fortran a fault shows, by its code and by the text at its place."""

from collections.abc import Callable, Sequence

from mutants.explanations.forms import (
    action_of, column_habits, data_habits, if_habits, label_habits, late_habits, line_habits, parenthesis_habits,
)  # fmt: skip
from mutants.explanations.habits import Seen
from mutants.explanations.keywords import ADDED, keyword_habits
from mutants.explanations.names import with_plain_type
from mutants.explanations.pieces import bound_habits, piece_habits, without_remark
from mutants.explanations.usage import (end_habits, kind_habits, long_habits, number_habits, real_habits, twice_habits)
from mutants.texts.cards import Card, cards_of, source_lines


def statement_habits(text: str) -> list[Seen]:
    """The habits in a statement, which has no comment at its end."""
    front, action = action_of(text)
    keywords = keyword_habits(action)
    seen = [*if_habits(text), *data_habits(text), *keywords]
    if not keywords or keywords[0].habit in ADDED_HABITS:
        bounds = bound_habits(with_plain_type(text))
        return [*seen, *bounds, *([] if keywords or bounds else piece_habits(text))]
    # Other habits of a statement that is to be left out are passed over.
    return [*seen, *piece_habits(front)]


def unknown_habits(card: Card, cards: Sequence[Card], lines: Sequence[str]) -> list[Seen]:
    """The habits of a statement that is none of the subset, or may not stand there."""
    text, has_remark = without_remark(card.text)
    seen = [*([Seen("comment behind !")] if has_remark else []), *label_habits(card), *statement_habits(text)]
    # Only where nothing else is recognised, what may be meant otherwise is looked at.
    for more in (late_habits(card, cards), parenthesis_habits(text), column_habits(card, lines)):
        seen = seen or list(more)
    return seen


ADDED_HABITS = [habit for _, habit in ADDED]
Look = Callable[[Card, Sequence[Card], Sequence[str]], list[Seen]]
BY_LINE: dict[str, Look] = {
    "S2": unknown_habits,
    "S3": lambda card, cards, lines: long_habits(card),
    "C4": lambda card, cards, lines: list(kind_habits(card, cards)),
    "C5": lambda card, cards, lines: number_habits(card, cards),
    "C11": lambda card, cards, lines: end_habits(card, cards),
}


def habits_seen(code: str, detail: str, source: str) -> list[Seen]:
    """The habits that a fault shows, by the detail after its code; none where nothing is recognised."""
    cards, lines = cards_of(source), source_lines(source)
    if code in ("C2", "C3"):
        return real_habits(detail, cards) if code == "C2" else twice_habits(detail)
    if code == "F5":
        return line_habits(lines[int(detail) - 1]) if 0 < int(detail) <= len(lines) else []
    card = next((card for card in cards if str(card.line) == detail), None)
    seen = BY_LINE[code](card, cards, lines) if card and code in BY_LINE else []
    return list({each.habit + each.says: each for each in seen}.values())


def said_of_all(seen: Sequence[Seen]) -> list[str]:
    """What the habits are, in a sentence or two each."""
    return [each.says for each in seen]


def advice_of_all(seen: Sequence[Seen], other: str) -> str:
    """What to write instead; where no habit is recognised, the other advice."""
    return " ".join(dict.fromkeys(each.advice for each in seen)) or other
