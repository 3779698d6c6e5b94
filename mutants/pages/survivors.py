"""The survivors of a line, each with what it changes. Of many, some are folded.

A long statement is not shown whole for each of them: text that is far from the change is marked, so that a small screen
can leave it out, and text that is very far is left out everywhere.
"""

from collections.abc import Iterable, Mapping, Sequence
from functools import lru_cache
from types import MappingProxyType

from mutants.english import joined_words, plural
from mutants.operators import NAMES
from mutants.pages.frame import text
from mutants.texts.differences import WORD, pieces
from mutants.texts.lines import Mutant
from mutants.texts.twins import name_of, names_text, twins_in

# How many survivors of a line are unfolded.
UNFOLDED = 5
# How many characters of a statement stand at least beside a change; how many more are worth to be left out on a small
# screen; and how many are left out everywhere.
NEAR, FAR, FARTHEST = 14, 8, 90
NO_REMARKS: Mapping[str, str] = MappingProxyType({})
MARKS = {"=": "{}", "-": "<del>{}</del>", "+": "<ins>{}</ins>"}
# The operator whose mutants are equivalent most often.
ABS = "ABS"

Twins = Sequence[Mutant]


def near(words: Iterable[str]) -> int:
    """How many characters of unchanged text are near a change: whole words, counted from the change."""
    count = 0
    for word in words:
        if count >= NEAR:
            break
        count += len(word)
    return count


def far_part(far: str) -> str:
    """Text that is far from a change, marked or left out."""
    if len(far) > FARTHEST:
        return "\u2026"
    return f"<i>{text(far)}</i>" if len(far) > FAR else text(far)


# A class shows the same survivors on many pages.
@lru_cache(maxsize=65_536)
def with_context(old: str, new: str) -> str:
    """The two statements as one text, in which what is gone, what is new, and what is far from both is marked."""
    parts = pieces(old, new)
    shown = [MARKS[mark].format(text(piece)) for mark, piece in parts]
    if parts and parts[0][0] == "=":
        front = parts[0][1]
        at = len(front) - near(reversed(WORD.findall(front)))
        shown[0] = far_part(front[:at]) + text(front[at:])
    if len(parts) > 1 and parts[-1][0] == "=":
        back = parts[-1][1]
        at = near(WORD.findall(back))
        shown[-1] = text(back[:at]) + far_part(back[at:])
    return "".join(shown)


def survivor_item(twins: Twins, statement: str, remarks: Mapping[str, str]) -> str:
    """A survivor with all its names, and the remark on one of them, which holds for the others too."""
    remark = next((remarks[name] for name in map(name_of, twins) if name in remarks), "")
    why = f'<span class="soft">{text(remark)}</span>' if remark else ""
    code = f"<code>{with_context(statement, twins[0].text)}</code>"
    return f"<li><b>{text(names_text(twins))}</b>{code}{why}</li>\n"


def items(groups: Iterable[Twins], statement: str, remarks: Mapping[str, str]) -> str:
    """The mutants of a line in groups of twins, with the remarks on them by their names."""
    return "<ul>\n" + "".join(survivor_item(twins, statement, remarks) for twins in groups) + "</ul>\n"


def folded(summary: str, groups: Sequence[Twins], statement: str, remarks: Mapping[str, str]) -> str:
    if not groups:
        return ""
    return f"<details><summary>{summary}</summary>{items(groups, statement, remarks)}</details>\n"


def ops_of(groups: Iterable[Twins]) -> list[str]:
    return list(dict.fromkeys(twin.op for twins in groups for twin in twins))


def survivors_part(survivors: Iterable[Mutant], statement: str, remarks: Mapping[str, str] = NO_REMARKS) -> str:
    """The survivors of a line: the first few, the others in a fold, and those of ABS alone in a fold of their own."""
    groups = twins_in(survivors)
    others = [twins for twins in groups if ops_of([twins]) != [ABS]]
    absolute = [twins for twins in groups if ops_of([twins]) == [ABS]]
    shown, rest = others[:UNFOLDED], others[UNFOLDED:]
    parts = items(shown, statement, remarks) if shown else ""
    parts += folded(f"{len(rest)} more, of {joined_words(ops_of(rest))}", rest, statement, remarks)
    summary = f"<b>{ABS}</b> {NAMES[ABS]}: {plural(len(absolute), 'survivor')}"
    return f'<div class="mutants">{parts}{folded(summary, absolute, statement, remarks)}</div>\n'


def declared_part(declared: Iterable[Mutant], statement: str, reasons: Mapping[str, str], how: str = "declared") -> str:
    """The mutants of a line that are declared equivalent, or proved so, and survived, folded."""
    every = list(declared)
    summary = f"<summary>{len(every)} {how} equivalent</summary>"
    shown = items(twins_in(every), statement, reasons)
    return f'<div class="mutants declared"><details>{summary}{shown}</details></div>\n'
