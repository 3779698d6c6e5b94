"""Colours on a terminal, and nowhere else, nor where NO_COLOR is set. A text says the same without its colours."""

import os
import re
import sys

from mutants.words import visible

RED, GREEN, BOLD, END = "\x1b[31m", "\x1b[32m", "\x1b[1m", "\x1b[0m"
# What is wrong, the score, and what a mutant changes.
WRONG = re.compile(r"^(?:NOT AS EXPECTED|WRONGLY DECLARED|PROVED, AND YET|BELOW|NEWLY SURVIVING).*", re.M)
SCORE = re.compile(r"^(?:Score [\d.]+ %|No score)", re.M)
CHANGE = re.compile(r"\[(.*?) -> (.*?)\](?=.*$)", re.M)


def has_colours() -> bool:
    return sys.stdout.isatty() and not os.environ.get("NO_COLOR") and os.environ.get("TERM") != "dumb"


def coloured(text: str) -> str:
    """A text with its colours."""
    text = CHANGE.sub(rf"[{RED}\1{END} -> {GREEN}\2{END}]", text)
    text = SCORE.sub(rf"{BOLD}\g<0>{END}", text)
    return WRONG.sub(rf"{BOLD}{RED}\g<0>{END}", text)


def painted(text: str) -> str:
    """A text for standard output, without whatever else a terminal would obey."""
    return coloured(visible(text)) if has_colours() else visible(text)
