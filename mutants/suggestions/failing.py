"""A program with which one call shows on which of many rows a given program fails.

A job is refused where the program fails on a test, and the refusal names only one test. So another program is made,
which returns at once. Its first mutant by SDL leaves that RETURN out: it does what the given program does, and then
gives each argument the value that it had before. So it is killed by just those rows on which the given program fails.
"""

import re
from collections.abc import Iterable, Iterator, Mapping, Sequence
from itertools import count, islice

from mutants.suggestions.shapes import Row, items_of
from mutants.texts.cards import cards_of, lines_of

# A label, which may be empty, and a text.
Statement = tuple[str, str]
DECLARING = ("INTEGER ", "LOGICAL ", "DIMENSION ")
HEAD = re.compile(r"SUBROUTINE [A-Z0-9]+\(([A-Z0-9,]+)\)")
# How many steps the copies of the arguments take, and how many more for each element.
STEPS, STEPS_OF_ITEM = 60, 8


def more_steps(row: Row) -> int:
    """How many steps the made program may take beyond those of the given one."""
    return STEPS + STEPS_OF_ITEM * sum(len(items_of(value)) for value in row)


def jumping(text: str, label: str) -> str:
    """A statement that jumps to a label where the given one ends the run."""
    if text in ("RETURN", "STOP"):
        return f"GO TO {label}"
    match = re.fullmatch(r"(IF \(.*\)) (?:RETURN|STOP)", text)
    return f"{match[1]} GO TO {label}" if match else text


def free_labels(statements: Iterable[Statement]) -> Iterator[str]:
    used = {label.lstrip("0") for label, _ in statements}
    return (str(label) for label in range(99999, 0, -1) if str(label) not in used)


def free_names(statements: Iterable[Statement]) -> Iterator[str]:
    """Names of variables that are INTEGER without a declaration, and do not occur in these statements."""
    used = {word for _, text in statements for word in re.findall(r"[A-Z][A-Z0-9]*", text)}
    return (name for name in (f"N{number:05d}" for number in count()) if name not in used)


def bounds_in(declarations: Iterable[Statement]) -> dict[str, str]:
    """The bounds of each array that is declared."""
    texts = [text for _, text in declarations if text.startswith(DECLARING)]
    return {name: bounds for text in texts for name, bounds in re.findall(r"([A-Z][A-Z0-9]*)\(([\d,]+)\)", text)}


def copied(to: str, name: str, bounds: str, indices: Sequence[str], labels: Iterator[str]) -> list[Statement]:
    """The statements that give a variable or an array the value of another one."""
    if not bounds:
        return [("", f"{to}={name}")]
    sizes, label = bounds.split(","), next(labels)
    place = f"({','.join(indices[: len(sizes)])})"
    loops = [("", f"DO {label} {index}=1,{size}") for index, size in zip(indices, sizes)]
    return [*loops, (label, f"{to}{place}={name}{place}")]


def declared(name: str, value: object, bounds: str) -> Statement:
    """The declaration of a variable or an array for values such as this one."""
    first = value[0] if isinstance(value, tuple) else value
    return "", f"{'LOGICAL' if isinstance(first, bool) else 'INTEGER'} {name}" + (f"({bounds})" if bounds else "")


def body_of(executed: Sequence[Statement], end_label: str, label: str) -> list[Statement]:
    """The executable statements, where a jump to a label after them takes the place of each end of the run."""
    jumps = [(own, jumping(text, label)) for own, text in executed]
    return [*jumps, *([(end_label, "CONTINUE")] if end_label else []), (label, "CONTINUE")]


def guarded(source: str, printed: Sequence[str], row: Row) -> str | None:
    """The program that shows on which rows the program of a source fails; None where none can be made.

    `printed` has the text of each of its statements, and the row is one of those that fit it.
    """
    statements = [(card.label, text) for card, text in zip(cards_of(source), printed)]
    head = HEAD.fullmatch(printed[0])
    names = head[1].split(",") if head else []
    if not names or len(names) != len(row):
        return None
    parts: Mapping[str, list[Statement]] = {"types": [], "data": [], "executed": []}
    for each in statements[1:-1]:
        kind = "types" if each[1].startswith(DECLARING) else "data" if each[1].startswith("DATA ") else "executed"
        parts[kind].append(each)
    bounds, labels, fresh = bounds_in(parts["types"]), free_labels(statements), free_names(statements)
    label, indices = next(labels), list(islice(fresh, 7))
    others = [(name, next(fresh), bounds.get(name, "")) for name in names]
    more = [declared(other, value, size) for (_, other, size), value in zip(others, row)]
    saved = [each for name, other, size in others for each in copied(other, name, size, indices, labels)]
    restored = [each for name, other, size in others for each in copied(name, other, size, indices, labels)]
    body = body_of(parts["executed"], statements[-1][0], label)
    whole = [statements[0], *parts["types"], *more, *parts["data"], ("", "RETURN"), *saved, *body, *restored]
    return "".join(f"{line}\n" for each in [*whole, ("", "END")] for line in lines_of(*each))
