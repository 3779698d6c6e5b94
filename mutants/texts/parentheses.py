"""Parentheses of a text: how deep a place is in them, which closes which, and the commas outside them."""

from collections.abc import Iterable, Iterator


def depths(words: Iterable[str]) -> Iterator[int]:
    """How many parentheses are open after each character, or each word, of a text."""
    depth = 0
    for word in words:
        depth += {"(": 1, ")": -1}.get(word, 0)
        yield depth


def closing(text: str, begin: int) -> int:
    """The place of the parenthesis that closes the one at `begin`; the end of the text where none does."""
    return next((at for at, depth in enumerate(depths(text[begin:]), begin) if depth == 0), len(text))


def commas(text: str) -> list[int]:
    """The places of the commas that are in no parentheses."""
    return [at for at, depth in enumerate(depths(text)) if depth == 0 and text[at] == ","]
