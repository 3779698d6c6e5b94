"""The lines of definitions, of code and of proofs that are wider than they may be."""

import re
from collections.abc import Iterator
from pathlib import Path

from developing.antt.reaching import OPEN, Reached

# The widest line of a definition that public contracts reach, and that of each folder of a crate.
OPEN_WIDEST = 100
WIDEST = {"specs": 120, "src": 120, "proofs": 200}
# A text in quotation marks, which may have several lines. Marks in comments and in signs begin no text.
QUOTED = re.compile(r'(//[^\n]*|b?\'(?:[^\'\\]|\\.)\')|r(#+)".*?"\2|b?r?"(?:[^"\\]|\\.)*"', re.S)
# The formatter puts an attribute on one line.
ATTRIBUTE = re.compile(r" *#!?\[")


def unquoted(text: str) -> list[str]:
    """The lines of a text without what stands in quotation marks."""
    return QUOTED.sub(lambda quote: quote[1] or '""' + "\n" * quote[0].count("\n"), text).split("\n")


def widths_in(text: str) -> list[int]:
    return [0 if ATTRIBUTE.match(line) else len(line) for line in unquoted(text)]


def open_lines(reached: Reached) -> set[tuple[Path, int]]:
    """The lines of definitions that public contracts reach."""
    definitions = [each for each in reached.definitions() if reached.class_of(each) in OPEN]
    return {(file, unit.start + at) for _, file, unit in definitions for at in range(len(unit.lines))}


def texts_in(root: Path) -> Iterator[tuple[Path, str]]:
    """The files of definitions, of code and of proofs, each with its text."""
    for path in sorted([*root.glob("crates/*/*/**/*.antt"), *root.glob("crates/*/*/**/*.rt")]):
        file = path.relative_to(root)
        if file.parts[2] in WIDEST:
            yield file, path.read_text(encoding="utf-8")


def wide_of(reached: Reached) -> Iterator[str]:
    """Each line that is too wide, texts in quotation marks and attributes aside."""
    narrow = open_lines(reached)
    for file, text in texts_in(reached.repository.root):
        for at, width in enumerate(widths_in(text)):
            most = OPEN_WIDEST if (file, at) in narrow else WIDEST[file.parts[2]]
            if width > most:
                yield f"{file}:{at + 1}: {width} columns, and {most} at most are wanted"
