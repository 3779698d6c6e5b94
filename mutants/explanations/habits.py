"""The texts on habits outside the subset: what each is, and what to write instead. They stand in habits.txt.

Tests make sure that each habit is recognised in its examples, and tools/examples that mothra reports those faults.
"""

import re
from collections.abc import Mapping
from types import MappingProxyType
from typing import NamedTuple

from mutants.explanations.paragraphs import paragraphs_of
from mutants.texts.cards import is_continuation


class Example(NamedTuple):
    """The code of a fault, the name that it reports ("" where it reports a line), and the lines of a program."""

    code: str
    name: str
    lines: list[str]

    @property
    def source(self) -> str:
        """The lines in a subroutine, each in its columns."""
        return "\n".join([*FRONT, *map(in_columns, self.lines), "      END", ""])

    @property
    def fault(self) -> str:
        """The fault that mothra reports: at the name, or at the line where the last statement before END begins."""
        behind = [line for line in map(in_columns, self.lines) if not is_continuation(line)]
        return f"FAULT {self.code} {self.name or len(FRONT) + len(behind)}"


class Habit(NamedTuple):
    examples: list[Example]
    says: str
    advice: str


class Seen(NamedTuple):
    """A habit that is recognised in a statement, and the words that are filled into its text."""

    habit: str
    words: Mapping[str, object] = MappingProxyType({})

    @property
    def says(self) -> str:
        return HABITS[self.habit].says.format_map(self.words)

    @property
    def advice(self) -> str:
        return HABITS[self.habit].advice.format_map(self.words)


# What stands before the lines of an example.
FRONT = ["      SUBROUTINE ADD(I,J,K)", "      LOGICAL P,Q", "      INTEGER M(3)"]
EXAMPLE = re.compile(r"For: (?P<code>[SFC]\d+)(?:(?<=C[23]) (?P<name>[A-Z0-9]+):)? (?P<lines>.+)\n")
PARAGRAPH = re.compile(r"(?P<habit>.+)\n(?P<examples>(?:For: .+\n)+)(?P<says>.+)\nDo: (?P<advice>.+)")


def in_columns(line: str) -> str:
    """A line of an example in its columns. After > it has them already; else a number in front is its label."""
    label = re.match(r"(\d+) ", line)
    return line[1:] if line.startswith(">") else f"{label[1]:>5} {line[label.end():]}" if label else f"      {line}"


def habit_of(paragraph: "re.Match[str]") -> Habit:
    """What a paragraph says of a habit."""
    examples = EXAMPLE.finditer(paragraph["examples"])
    read = [Example(each["code"], each["name"] or "", each["lines"].split("|")) for each in examples]
    return Habit(read, paragraph["says"], paragraph["advice"])


HABITS = {paragraph["habit"]: habit_of(paragraph) for paragraph in paragraphs_of("habits.txt", PARAGRAPH)}
