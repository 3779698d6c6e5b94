"""The cells of a table of tests: their values, and why a cell has none."""

import json
import re
from typing import Any

from mutants.texts.jobs import Value

TRUTHS = {"T": True, "TRUE": True, "F": False, "FALSE": False}
# The truth values as FORTRAN writes them.
TRUTHS |= {f".{word}.": value for word, value in TRUTHS.items()}
# Repetitions as in FORTRAN: 15*0 are fifteen zeros. An array has at most this many elements.
REPEAT, MOST = re.compile(r"(\d+)\*(.+)"), 10_000
LEAST, GREATEST = -(2**31), 2**31 - 1
# So many characters of a cell are shown.
LONGEST = 40


def is_scalar(value: object) -> bool:
    return isinstance(value, bool) or isinstance(value, int) and LEAST <= value <= GREATEST


def is_value(value: object) -> bool:
    if isinstance(value, list):
        return all(map(is_scalar, value)) and len(set(map(type, value))) == 1
    return is_scalar(value)


def read_word(word: str) -> Value:
    """The number or the truth value that a word of a CSV table writes; ValueError says why it writes none."""
    if word.upper() in TRUTHS:
        return TRUTHS[word.upper()]
    shown = word[:LONGEST]
    if ";" in word:
        raise ValueError(f"{shown!r} has a semicolon: cells are separated by commas")
    if not re.fullmatch("[+-]?[0-9]+", word):
        is_number = re.fullmatch(r"[+-]?[0-9]*\.?[0-9]*([eE][+-]?[0-9]+)?", word) and any(map(str.isdigit, word))
        raise ValueError(f"{shown!r} is no whole number" if is_number else f"{shown!r} is no number and no truth value")
    digits = word.lstrip("+-").lstrip("0") or "0"
    value = -int(digits[:12]) if word[0] == "-" else int(digits[:12])
    if not is_scalar(value):
        raise ValueError(f"{shown} is out of range: a value is from {LEAST} to {GREATEST}")
    return value


def read_words(word: str) -> list[Value]:
    """The value of a word, as often as it says."""
    repeat = REPEAT.fullmatch(word)
    if repeat and not 0 < int(repeat[1][:9]) <= MOST:
        raise ValueError(f"{word[:LONGEST]!r} repeats a value {repeat[1][:9]} times: it is from 1 to {MOST} times")
    return [read_word(repeat[2])] * int(repeat[1]) if repeat else [read_word(word)]


def read_cell(cell: str) -> Any:
    """The value of a cell; several words are an array."""
    values = [value for word in cell.split() for value in read_words(word)]
    if not values:
        raise ValueError("the cell is empty")
    if len(set(map(type, values))) > 1:
        raise ValueError(f"{cell.strip()[:LONGEST]!r} has numbers and truth values in one array")
    return values[0] if len(values) == 1 else values


def is_blank(cell: object) -> bool:
    """Whether a cell has nothing in it; in JSON it is null."""
    return cell is None or isinstance(cell, str) and not cell.strip()


def checked_value(value: object) -> Any:
    """A value of a table in JSON, which has to be one of a job."""
    if is_value(value):
        return value
    text = json.dumps(value)[:LONGEST]
    if isinstance(value, int) and not isinstance(value, bool):
        raise ValueError(f"{text} is out of range: a value is from {LEAST} to {GREATEST}")
    raise ValueError(f"{text} is no value: a whole number, true, false, or a list of one kind of these")
