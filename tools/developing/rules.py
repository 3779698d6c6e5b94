"""The table of the rules: where each is defined, whose contracts cite it, and how many rows try it.

A comment `-- Rule: NAME (SECTIONS)` stands above each definition of a rule, below `specs/` of its crate; the sections
are those of the standard, where the rule is from it.
"""

import re
from collections import Counter
from collections.abc import Iterator, Sequence
from pathlib import Path
from typing import NamedTuple

from developing.antt.contracts import parts_in
from developing.antt.crates import read_crates

MARKER = re.compile(r"^ *-- Rule: (.+?)(?: \(([\d. to,]+)\))?$")
DEFINITION = re.compile(r" *(?:abbrev |unfoldable )?pub (?:data |record )?(\w+)")
# A code of faults, or the codes from one to another.
CODES = re.compile(r"\b([A-Z])(\d+)(?: to \1(\d+))?")
# So many functions are named; a rule that more cite is looked for with grep.
MOST = 4
Rows = Iterator[Sequence[str]]


class Rule(NamedTuple):
    crate: str
    name: str
    sections: str


def marked(path: Path) -> Iterator[tuple[str, str, str]]:
    """The name and the sections of each marker of a file, and the definition below it."""
    rule = None
    for line in path.read_text(encoding="utf-8").splitlines():
        if found := MARKER.match(line):
            rule = found
        elif rule and not line.lstrip().startswith("--"):
            definition = DEFINITION.match(line)
            if not definition:
                raise ValueError(f"{path.name}: the marker of the rule {rule[1]} stands above no definition")
            yield rule[1], rule[2] or "", definition[1]
            rule = None


def rules_in(root: Path) -> dict[Rule, list[str]]:
    """The definitions of each rule, in the order of the crates, their files and their lines."""
    rules: dict[Rule, list[str]] = {}
    for crate in read_crates(root):
        for path in sorted((root / "crates" / crate / "specs").rglob("*.antt")):
            for name, sections, definition in marked(path):
                rules.setdefault(Rule(crate, name, sections), []).append(definition)
    return rules


def citing(root: Path, crate: str, definitions: Sequence[str]) -> list[str]:
    """The functions whose contracts cite one of these: the public ones, and the others where there is none."""
    cites = re.compile(rf"\b({'|'.join(definitions)})\b")
    paths = sorted((root / "crates" / crate / "src").glob("*.rt"))
    parts = [part for path in paths for part in parts_in(path.read_text(encoding="utf-8"))]
    found = [part for part in parts if part.name and cites.search(part.text)]
    public = dict.fromkeys(part.name for part in found if part.is_marked)
    return list(public or dict.fromkeys(part.name for part in found))


def codes_in(name: str) -> Iterator[str]:
    """The codes of faults that the name of a rule has, those between two of them too."""
    for letter, first, last in CODES.findall(name):
        yield from (f"{letter}{number}" for number in range(int(first), int(last or first) + 1))


def rules_of(root: Path) -> Rows:
    """The rules with their definitions, the functions whose contracts cite them, and the rows that get their faults."""
    answers = Counter(re.findall(r"FAULT ([A-Z]\d+)", (root / "crates/rows/stdout").read_text(encoding="utf-8")))
    yield "Rule", "Standard", "Crate", "Definitions", "Cited by", "Rows"
    for rule, definitions in rules_in(root).items():
        functions = [f"`{name}`" for name in citing(root, rule.crate, definitions)]
        shown = ", ".join(functions[:MOST]) + (" and others" if len(functions) > MOST else "")
        rows = sum(answers[code] for code in codes_in(rule.name))
        names = ", ".join(f"`{name}`" for name in definitions)
        yield rule.name, rule.sections, f"`{rule.crate}`", names, shown, f"{rows}" if rows else ""
