"""The texts of explanations: a file of paragraphs, the first of which says what the others are."""

import re
from pathlib import Path


def matched(text: str, pattern: "re.Pattern[str]") -> "re.Match[str]":
    match = pattern.fullmatch(text)
    if not match:
        raise ValueError(f"there is a paragraph that is none: {text[:40]!r}")
    return match


def paragraphs_of(name: str, pattern: "re.Pattern[str]") -> "list[re.Match[str]]":
    """The paragraphs of a file beside this one, each of which has to match the pattern. A line that begins with blanks
    continues the one before."""
    text = Path(__file__).with_name(name).read_text(encoding="utf-8").replace("\n  ", " ").rstrip("\n")
    return [matched(each, pattern) for each in text.split("\n\n")[1:]]
