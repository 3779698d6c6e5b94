"""The names of a unit as its statements use them: arrays, names of LOGICAL, and names that are called."""

import re
from collections.abc import Collection, Iterable

TYPES = r"(?:INTEGER|LOGICAL|REAL|DOUBLEPRECISION|COMPLEX|CHARACTER)(?:\*\d+)?"
# Types outside the subset, before a name. Attributes that give bounds stay.
OTHER_TYPE = re.compile(
    r"(?:REAL|DOUBLEPRECISION|COMPLEX|CHARACTER|INTEGER|(LOGICAL))(?:\*(?:\d+|\(\*\))|\([A-Z0-9=*]+\))?"
    r"(?:(?:,(?!DIMENSION)[A-Z]+(?:\([A-Z]+\))?)*::)?(?=[A-Z])(?!FUNCTION)"
)
ARRAYS = re.compile(rf"(?:{TYPES}|DIMENSION|COMMON)(?=[A-Z/])")
ITEM = re.compile(r"([A-Z][A-Z0-9]*)(?:\([^()]*\))?")
FUNCTIONS = ("MOD", "IABS", "MIN0", "MAX0")


def with_plain_type(text: str) -> str:
    """A type statement with INTEGER or LOGICAL in the place of its type, of lengths and of attributes."""
    kind = OTHER_TYPE.match(text)
    return f"{kind[1] or 'INTEGER'}{text[kind.end():]}" if kind else text


def declared_arrays(texts: Iterable[str]) -> set[str]:
    """The names that declarations of any type give bounds, by the texts of statements."""
    fronts = [(text, ARRAYS.match(text)) for text in texts]
    return {name for text, front in fronts if front for name in re.findall(r"([A-Z][A-Z0-9]*)\(", text[front.end() :])}


def logical_names(texts: Iterable[str]) -> set[str]:
    """The names that are declared LOGICAL."""
    matches = [re.fullmatch(r"LOGICAL(?:\*\d+)?([A-Z].*)", text) for text in texts]
    return {name for each in matches if each for name in ITEM.findall(each[1])}


def called_names(text: str, arrays: Collection[str]) -> list[tuple[str, int]]:
    """The names in a statement that are followed by a parenthesis and are neither arrays nor functions,
    and their places."""
    front = re.match(r"(?:ELSE)?IF(?=\()|GOTO(?=\()|DO\d+,?(?=[A-Z]+\d*=)", text)
    calls: list[tuple[str, int]] = []
    if ARRAYS.match(text):
        return calls
    for match in re.finditer(r"([A-Z][A-Z0-9]*)\(", text):
        if front and match.start() < front.end() or match[1] in arrays or match[1] in FUNCTIONS:
            continue
        if match[1] not in dict(calls):
            calls.append((match[1], match.start()))
    return calls
