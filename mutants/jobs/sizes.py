"""Adjustable bounds: those of INTEGER X(N), JPNTR(N+1), LAST(1) and A(*) get the values that --size gives them.

The values are written only into the source of the job, on the lines of the bounds. The name of a variable gives values
to the bounds that are made of it; the name of an array gives its last bound.
"""

import ast
import re
from collections.abc import Iterator, Mapping, Sequence
from typing import NamedTuple

from mutants.texts.cards import Card, cards_of, is_comment, is_continuation
from mutants.texts.parentheses import closing, commas

DECLARATION = re.compile(r"(INTEGER|LOGICAL|DIMENSION)(?=[A-Z])(?!FUNCTION[A-Z])")
ITEM = re.compile(r"([A-Z][A-Z0-9]*)(\()?")
FIELD = 66


class Bound(NamedTuple):
    """A bound of an array: its text, where it stands in the text of its statement, and whether it is the last one."""

    array: str
    text: str
    begin: int
    end: int
    is_last: bool

    @property
    def upper(self) -> str:
        """The bound without a lower one that is 1, which changes nothing."""
        return self.text.removeprefix("1:")


def read_sizes(word: str) -> dict[str, int]:
    """The values of --size, by names in upper case."""
    sizes: dict[str, int] = {}
    for part in word.upper().split(","):
        size = re.fullmatch(r"\s*([A-Z][A-Z0-9]{0,5})\s*=\s*(\d{1,5})\s*", part)
        if not size or not 0 < int(size[2]) <= 10000:
            raise ValueError(f"--size has {part.strip()!r}, which is no name with a number from 1 to 10000, as N=8")
        if size[1] in sizes:
            raise ValueError(f"--size has {size[1]} twice")
        sizes[size[1]] = int(size[2])
    return sizes


def parts_between(text: str, begin: int, end: int) -> list[tuple[int, int]]:
    """The parts of a list between two places, cut at its commas."""
    cuts = [begin - 1, *(begin + at for at in commas(text[begin:end]))]
    return [(front + 1, back) for front, back in zip(cuts, [*cuts[1:], end])]


def bounds_of(text: str) -> Iterator[Bound]:
    """The bounds of the arrays that a statement declares."""
    front = DECLARATION.match(text)
    at = front.end() if front else len(text)
    while item := ITEM.match(text, at):
        at = item.end()
        if item[2]:
            end = closing(text, at - 1)
            parts = parts_between(text, at, end)
            yield from (Bound(item[1], text[i:j], i, j, (i, j) == parts[-1]) for i, j in parts)
            at = end + 1
        at += text[at : at + 1] == ","


def value_of(node: ast.expr, sizes: Mapping[str, int]) -> int:
    """The value of an expression of bounds; KeyError names a name without a value, ValueError what is no expression."""
    if isinstance(node, ast.Constant) and isinstance(node.value, int):
        return node.value
    if isinstance(node, ast.Name):
        return sizes[node.id]
    if isinstance(node, ast.UnaryOp) and isinstance(node.op, (ast.UAdd, ast.USub)):
        value = value_of(node.operand, sizes)
        return -value if isinstance(node.op, ast.USub) else value
    if isinstance(node, ast.BinOp):
        left, right = value_of(node.left, sizes), value_of(node.right, sizes)
        if isinstance(node.op, ast.Div) and right:
            return abs(left) // abs(right) * (1 if (left < 0) == (right < 0) else -1)
        known = {ast.Add: left + right, ast.Sub: left - right, ast.Mult: left * right}
        if type(node.op) in known:
            return known[type(node.op)]
    raise ValueError


def bound_value(bound: Bound, sizes: Mapping[str, int]) -> int | None:
    """The value that a bound gets; None where it gets none, or is a number already."""
    if bound.is_last and bound.array in sizes:
        return sizes[bound.array]
    if bound.text.isdecimal() or not re.fullmatch(r"[A-Z0-9+\-*/()]+", bound.upper) or "**" in bound.upper:
        return None
    try:
        # Python reads sums and products as FORTRAN does, except numbers with zeros in front.
        text = re.sub(r"(?<![A-Z0-9])0+(?=\d)", "", bound.upper)
        return value_of(ast.parse(text, mode="eval").body, sizes)
    except (KeyError, ValueError, SyntaxError):
        return None


def names_in(bound: Bound) -> list[str]:
    return re.findall(r"[A-Z][A-Z0-9]*", bound.text)


def names_for(bound: Bound) -> list[str]:
    """The names whose values --size takes for a bound that is no number; none where there is a lower bound too."""
    return [] if ":" in bound.upper else [bound.array] if bound.upper == "*" else names_in(bound)


def with_bounds(card: Card, sizes: Mapping[str, int]) -> tuple[str, set[str]]:
    """The text of a declaration with the values of its bounds, and the names that gave them."""
    text, used, at = "", set(), 0
    for bound in bounds_of(card.text):
        value = bound_value(bound, sizes)
        if value is None:
            continue
        if value < 1:
            raise ValueError(
                f"line {card.line}: the bound {bound.text} of {bound.array} becomes {value}, and is 1 at least"
            )
        used |= {bound.array} & set(sizes) if bound.is_last else set()
        used |= set(names_in(bound)) & set(sizes)
        text, at = text + card.text[at : bound.begin] + str(value), bound.end
    return text + card.text[at:], used


def lines_of_card(lines: Sequence[str], line: int) -> list[int]:
    """The places of the lines of a statement, by the number of its first line. Comments between them are left out."""
    places = [line - 1]
    for at in range(line, len(lines)):
        if is_continuation(lines[at]):
            places.append(at)
        elif not is_comment(lines[at]):
            break
    return places


def lay(lines: list[str], line: int, text: str) -> None:
    """Puts another text of a statement on the lines where it stands."""
    places = lines_of_card(lines, line)
    pieces = [text[at : at + FIELD] for at in range(0, len(text), FIELD)]
    if len(pieces) > len(places):
        raise ValueError(f"line {line}: there is no room for the numbers of its bounds; make two statements of it")
    for at, piece in zip(places, [*pieces, *[""] * (len(places) - len(pieces))]):
        lines[at] = lines[at][:6].ljust(6) + piece if piece else ""


def sized(source: str, sizes: Mapping[str, int], shares: bool = False) -> str:
    """The source, with values for bounds. Each name of --size has to give some bound a value, unless names are
    shared."""
    lines, used = source.split("\n"), set[str]()
    for card in cards_of(source):
        text, names = with_bounds(card, sizes)
        used |= names
        if text != card.text:
            lay(lines, card.line, text)
    for name in sizes:
        if name not in used and not shares:
            raise ValueError(f"--size has {name}, but no bound of an array is made of it, and no array has that name")
    return "\n".join(lines)


def unsized(source: str) -> list[tuple[int, Bound]]:
    """The bounds that are no numbers, each with the line of its statement."""
    return [
        (card.line, bound) for card in cards_of(source) for bound in bounds_of(card.text) if not bound.text.isdecimal()
    ]
