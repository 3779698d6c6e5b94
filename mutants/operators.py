"""The operators of Mothra, in their order: their codes and their full names (King and Offutt 1991)."""

import difflib
import re
from collections.abc import Collection

NAMES = {
    "AAR": "array reference for array reference",
    "ABS": "absolute value insertion",
    "ACR": "array reference for constant",
    "AOR": "arithmetic operator replacement",
    "ASR": "array reference for scalar variable",
    "CAR": "constant for array reference",
    "CNR": "comparable array name replacement",
    "CRP": "constant replacement",
    "CSR": "constant for scalar variable",
    "DER": "DO statement end replacement",
    "DSA": "DATA statement alterations",
    "GLR": "GO TO label replacement",
    "LCR": "logical connector replacement",
    "ROR": "relational operator replacement",
    "RSR": "RETURN statement replacement",
    "SAN": "statement analysis",
    "SAR": "scalar variable for array reference",
    "SCR": "scalar for constant",
    "SDL": "statement deletion",
    "SRC": "source constant replacement",
    "SVR": "scalar variable replacement",
    "UOI": "unary operator insertion",
}


# Sets of operators by name. These five are nearly enough (Offutt, Lee, Rothermel, Untch and Zapf 1996).
SETS = {"SUFFICIENT": ("ABS", "AOR", "LCR", "ROR", "UOI")}


def code_of(word: str) -> str:
    """The code of an operator, which a word writes in upper or lower case; ValueError names the nearest code."""
    if word.upper() in NAMES:
        return word.upper()
    near = difflib.get_close_matches(word.upper(), NAMES, 1, 0.3)
    hint = f"is {near[0]} meant, {NAMES[near[0]]}? The" if near else "the"
    raise ValueError(f"{word!r} is no code of an operator; {hint} codes are {', '.join(NAMES)}")


def chosen_codes(ops: Collection[str] | None, without: Collection[str] | None) -> list[str]:
    """The codes that are asked for: all, or those in `ops`, without those in `without`."""
    chosen = [code for code in NAMES if (not ops or code in ops) and code not in (without or ())]
    if not chosen:
        raise ValueError("no operator is left: --except has all that are asked for")
    return chosen


def codes_in(text: str) -> list[str]:
    """The codes in a text, with commas or blanks between them, each once and in the order of the operators; a name of
    a set stands for all of it."""
    words = [word for word in re.split(r"[,\s]+", text) if word]
    codes = {code for word in words for code in SETS.get(word.upper()) or [code_of(word)]}
    if not codes:
        raise ValueError("there is no code of an operator")
    return [code for code in NAMES if code in codes]
