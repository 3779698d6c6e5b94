"""Habits that show in how a statement uses names: functions of other Fortran, arrays, truth values, ends of IFs."""

import re
from collections.abc import Collection, Iterator, Sequence

from mutants.explanations.forms import action_of, condition_of
from mutants.explanations.habits import Seen
from mutants.explanations.names import FUNCTIONS, called_names, declared_arrays, logical_names
from mutants.explanations.spans import without_operators
from mutants.explanations.statements import long_name_in
from mutants.jobs.sizes import bounds_of
from mutants.texts.cards import Card, action_at

# Functions of FORTRAN 77 and of later Fortran, by the name of the habit that says what to write instead.
OTHERS = {
    "ABS": "ABS DABS CABS IIABS JIABS",
    "MAX": "MAX MAX1 AMAX0 AMAX1 DMAX1",
    "MIN": "MIN MIN1 AMIN0 AMIN1 DMIN1",
    "remainder": "AMOD DMOD MODULO",
    "sign of another": "SIGN ISIGN DSIGN",
    "difference": "DIM IDIM DDIM",
    "conversion": "INT IFIX IDINT NINT IDNINT FLOAT DFLOAT REAL DBLE SNGL AINT ANINT DINT DNINT CMPLX FLOOR",
    "function of REAL": "SQRT DSQRT EXP DEXP LOG ALOG DLOG LOG10 ALOG10 DLOG10 SIN DSIN COS DCOS TAN DTAN ASIN ACOS"
    " ATAN ATAN2 SINH COSH TANH AIMAG CONJG DPROD RANDOM RAND RAN",
    "function of texts": "LEN CHAR ICHAR INDEX LGE LGT LLE LLT TRIM LENTRM ADJUST SCAN VERIFY IACHAR ACHAR",
    "function of bits": "IAND IOR IEOR NOT ISHFT ISHFTC BTEST IBSET IBCLR IBITS LSHIFT RSHIFT XOR",
    "function of arrays": "SUM PRODUCT SIZE MAXVAL MINVAL MAXLOC MINLOC ANY ALL COUNT SHAPE LBOUND UBOUND MATMUL"
    " MERGE PACK RESHAPE",
}
HABIT_OF = {name: habit for habit, names in OTHERS.items() for name in names.split()}
TRUTH = r"\.(?:TRUE|FALSE)\."


def texts_of(cards: Sequence[Card]) -> list[str]:
    return [card.text for card in cards]


def is_executed(text: str) -> bool:
    """Whether a statement is an executable one: none of those that come before all executable ones."""
    return not re.match(r"(SUBROUTINE|INTEGER|LOGICAL|DIMENSION|DATA)(?=[A-Z(*])", text)


def assigned_habit(name: str, card: Card, cards: Sequence[Card]) -> Seen:
    """The habit of an assignment to a name with parentheses that is no array: a statement function, or an undeclared
    array."""
    is_first = not any(is_executed(other.text) for other in cards if other.line < card.line)
    of_names = re.match(r"[A-Z][A-Z0-9]*\([A-Z][A-Z0-9]*(,[A-Z][A-Z0-9]*)*\)=", card.text)
    return Seen("statement function" if is_first and of_names else "undeclared array", {"name": name})


def called_habit(name: str, at: int, card: Card, cards: Sequence[Card]) -> Seen:
    """The habit of a name before a parenthesis that is neither an array nor a function of the subset."""
    target = re.compile(rf"{name}\([^=]*\)=(?!=)")
    if at in (0, action_at(card.text)) and target.match(card.text, at):
        return assigned_habit(name, card, cards)
    return Seen(HABIT_OF.get(name, "call of a function"), {"name": name})


def called_habits(card: Card, cards: Sequence[Card]) -> list[Seen]:
    calls = called_names(card.text, declared_arrays(texts_of(cards)))
    return [called_habit(name, at, card, cards) for name, at in calls]


def bounds_habits(card: Card) -> Iterator[Seen]:
    """Arrays of more than two bounds."""
    names = [bound.array for bound in bounds_of(card.text)]
    for name in dict.fromkeys(names):
        if names.count(name) > 2:
            yield Seen("three bounds", {"name": name, "count": names.count(name)})


def whole_habits(card: Card, arrays: Collection[str]) -> Iterator[Seen]:
    """Arrays without subscripts in executable statements."""
    text = without_operators(card.text)
    for name in sorted(arrays) if is_executed(card.text) else []:
        if re.search(rf"(?<![A-Z0-9]){name}(?![A-Z0-9(])", text):
            yield Seen("whole array", {"name": name})


def number_habits(card: Card, cards: Sequence[Card]) -> list[Seen]:
    """Why subscripts, bounds or arguments do not agree."""
    habits = [*called_habits(card, cards), *bounds_habits(card)]
    return habits or list(whole_habits(card, declared_arrays(texts_of(cards))))


def real_habits(name: str, cards: Sequence[Card]) -> list[Seen]:
    """The habits of a name that is REAL, by the first statement that shows it."""
    for card in cards:
        if name in ("TRUE", "FALSE"):
            return [Seen("truth value without points", {"name": name})]
        if name.startswith("THEN") and action_of(card.text)[1].startswith(f"{name}="):
            return [Seen("IF with THEN and more")]
        habits = called_habits(card, cards)
        if name in [seen.words["name"] for seen in habits]:
            # First of this name, then of what else is called there.
            return sorted(habits, key=lambda seen: seen.words["name"] != name)
    return []


def twice_habits(name: str) -> list[Seen]:
    return [Seen("type of a function", {"name": name})] if name in FUNCTIONS else []


def long_habits(card: Card) -> list[Seen]:
    """The habits of a name with more than six characters."""
    place = long_name_in(card.text)
    value = re.match(r"(?:INTEGER|LOGICAL)[A-Z][A-Z0-9]*=", card.text)
    if value or not place:
        return [Seen("first value")] if value else []
    name = card.text[place[0] : place[1]]
    if name.startswith("THEN") and action_at(card.text) == place[0]:
        return [Seen("IF with THEN and more")]
    return [Seen("long name", {"name": name, "count": len(name)})]


def kind_habits(card: Card, cards: Sequence[Card]) -> Iterator[Seen]:
    """Where INTEGER and LOGICAL are mixed up in a way that is common."""
    logical = logical_names(texts_of(cards))
    truth = "|".join([TRUTH, *(rf"(?<![A-Z0-9]){name}(?:\([^()]*\))?" for name in sorted(logical))])
    if re.search(rf"(?:{truth})\.(?:EQ|NE)\.|\.(?:EQ|NE)\.(?:\.NOT\.)?(?:{truth})(?![A-Z0-9(])", card.text):
        yield Seen("truth values compared")
    condition = condition_of(card.text)
    is_arithmetic = condition and re.fullmatch(r"\d+,\d+,\d+", condition[1])
    number = re.fullmatch(r"([A-Z][A-Z0-9]*)(?:\([^()]*\))?", condition[0]) if condition else None
    if number and number[1] not in logical and not is_arithmetic:
        yield Seen("number as a condition", {"name": number[0]})
    assigned = re.fullmatch(r"([A-Z][A-Z0-9]*)(\([^()]*\))?=[+-]?\d+", action_of(card.text)[1])
    if assigned and assigned[1] in logical:
        yield Seen("number as a truth value", {"name": assigned[1]})


def end_habits(card: Card, cards: Sequence[Card]) -> list[Seen]:
    """An ELSE or END IF after an IF that has its statement right after the condition, with no block between them."""
    if not re.match(r"ELSE|ENDIF$", card.text):
        return []
    for other in reversed([other for other in cards if other.line < card.line]):
        if re.search(r"^ENDIF$|THEN$", other.text):
            break
        if action_at(other.text):
            word = {"ELSE": "ELSE", "ENDIF": "END IF"}.get(card.text, "ELSE IF")
            return [Seen("END IF of a logical IF", {"line": other.line, "word": word})]
    return []
