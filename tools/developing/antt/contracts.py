"""The contracts of a file of code, as its text has them.

Nothing is proved or compiled: a call is what begins with `fn`, and a clause what follows `requires` or `ensures` in its
contract.
"""

import re
from collections.abc import Iterator, Sequence
from typing import NamedTuple

# The text of each clause by its name.
Clauses = dict[str, str]

# The beginnings of a block of methods or a type, of a method in it or a function, of a clause, and of a ghost value.
OWNER = re.compile(r"(?:pub(?:\(crate\))? )?(?:impl|trait|struct|enum)\b.*")
CALL = re.compile(r"( *)(pub )?(?:pub\(crate\) )?(?:const )?fn (\w+)")
CLAUSE = re.compile(r"^ *(requires|ensures)\*? *(\w*) *\{", re.M)
GHOST = re.compile(r"^ *ghost (\w+)(?::| =) \{", re.M)
# The name of a clause that has none, which is the only one of its call.
ALONE = {"ensures": "its clause", "requires": "its condition"}


class Part(NamedTuple):
    """A part of a file: a type or a block of methods, which has no name here, or a call, with the head of its block."""

    line: int
    head: str
    name: str
    is_marked: bool
    text: str


def owner_of(line: str) -> str:
    """The type that a block of methods, a trait or a type is of: the last name of its head, without its arguments."""
    head = re.sub(r"^(?:pub(?:\(crate\))? )?(?:impl\b *)?", "", line)
    while "<" in head:
        shorter = re.sub(r"<[^<>]*>", "", head.replace("->", ""))
        if shorter == head:
            break
        head = shorter
    head = re.split(r"\bwhere\b|[{(;:]", head)[0]
    return head.split()[-1] if head.split() else ""


def block_at(text: str, at: int) -> str:
    """What stands between the brace at a place of the text and its partner."""
    depth = 0
    for place in range(at, len(text)):
        depth += {"{": 1, "}": -1}.get(text[place], 0)
        if depth == 0:
            return text[at + 1 : place]
    return text[at + 1 :]


def clauses_of(contract: str, pattern: re.Pattern[str] = CLAUSE) -> Clauses:
    """The clauses of a contract: the text of each by its name. Those of one name are one text."""
    clauses: Clauses = {}
    for head in pattern.finditer(contract):
        name = head[head.lastindex or 0] or ALONE[head[1]]
        clauses[name] = clauses.get(name, "") + block_at(contract, head.end() - 1)
    return clauses


def contract_at(lines: Sequence[str], number: int, indent: str) -> str:
    """The lines of a call from its head to its body, or to its end where it has none."""
    for last in range(number, len(lines)):
        line = lines[last]
        is_clause = re.match(r" *(?:requires|ensures)\b", line)
        if line.startswith(indent + "{") or line.endswith(";") or line.endswith(("{", "{}")) and not is_clause:
            break
    return "\n".join(lines[number : last + 1])


def type_at(lines: Sequence[str], number: int) -> str:
    """The lines of a type or a block of methods up to the brace that ends it."""
    for last in range(number, len(lines)):
        if lines[last].startswith("}") or lines[last].endswith((";", "{}")) and not lines[last].startswith(" "):
            break
    return "\n".join(lines[number : last + 1])


def parts_in(text: str) -> Iterator[Part]:
    """The types, the blocks of methods and the calls of a file; of a call the text is its contract."""
    lines, head = text.split("\n"), ""
    for number, line in enumerate(lines):
        if OWNER.match(line):
            head = line
            yield Part(number, head, "", line.startswith("pub "), type_at(lines, number))
        elif line.startswith("}"):
            head = ""
        call = CALL.match(line)
        if call:
            contract = contract_at(lines, number, call[1])
            yield Part(number, head if call[1] else "", call[3], bool(call[2]), contract)
