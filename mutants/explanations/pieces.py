"""What a statement may have that no statement of the subset has: signs, texts, numbers, bounds that are no numbers."""

import re
from collections.abc import Iterator

from mutants.explanations.habits import Seen
from mutants.jobs.sizes import Bound, bounds_of, names_for

# Operators of the subset, in points.
OPERATORS = "EQ NE LT LE GT GE AND OR NOT EQV NEQV TRUE FALSE".split()
QUOTED = re.compile(r"'[^']*'?|\"[^\"]*\"?")
HOLLERITH = re.compile(r"(?<![A-Z0-9])\d+H(?=[A-Z])")
# A number with a point that begins no operator, or with an exponent.
NUMBER = re.compile(r"(?<![A-Z0-9])(?:(?:\d+\.\d*|\.\d+)(?![A-Z]{2,5}\.)(?:[ED][+-]?\d+)?|\d+[ED][+-]?\d+(?![A-Z0-9]))")
# Pieces, with the name of the habit of each, and the word of its text for which the piece that is found is filled in.
PIECES = (
    (r"==|/=|<|>", "relation by signs", ""),
    (r"&", "ampersand", ""),
    (r";", "semicolon", ""),
    (r"%", "part of a variable", ""),
    (r"_", "underscore", ""),
    (r"(?:\*\*|[-+*/])[-+](?=[A-Z0-9(])", "sign behind an operator", ""),
    (r"[-+*]=|\+\+|--(?![A-Z0-9(])|\(/|[\]\[\\^|~{}?@#$`]", "other sign", "sign"),
    (r"\([^()]*:[^()]*\)", "section", ""),
)


def without_remark(text: str) -> tuple[str, bool]:
    """A text up to a ! outside quotes, and whether there is one."""
    for piece in re.finditer(r"'[^']*'|\"[^\"]*\"|!", text):
        if piece[0] == "!":
            return text[: piece.start()], True
    return text, False


def piece_habits(text: str) -> Iterator[Seen]:
    """The pieces that a part of a statement holds, each once."""
    plain = QUOTED.sub("", text)
    if plain != text or HOLLERITH.search(plain):
        yield Seen("text")
    number = NUMBER.search(plain)
    if number:
        yield Seen("number with a point", {"number": number[0]})
    for form, habit, word in PIECES:
        piece = re.search(form, plain)
        if piece:
            yield Seen(habit, {word: piece[0]} if word else {})
    for piece in re.finditer(r"\.[A-Z]+\.", NUMBER.sub("0", plain)):
        if piece[0].strip(".") not in OPERATORS:
            yield Seen("other operator", {"operator": piece[0]})


def bound_habit(bound: Bound) -> Seen:
    """The habit of a bound that is no number."""
    words = {"bound": bound.text, "name": bound.array}
    if bound.upper == "*":
        return Seen("bound of any size", words)
    names = names_for(bound)
    if not names or bound.text != bound.upper:
        return Seen("lower bound", words)
    sizes = ",".join(f"{name}=8" for name in dict.fromkeys(names))
    offer = f"Write a number; or give one by --size {sizes}, which mutants writes into the job and not into the file."
    return Seen("adjustable bound", {**words, "offer": offer})


def bound_habits(text: str) -> list[Seen]:
    """The bounds of a declaration that are no numbers."""
    return [bound_habit(bound) for bound in bounds_of(text) if bound.text and not bound.text.isdecimal()]
