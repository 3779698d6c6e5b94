"""All faults of a unit: the one that the program reports first is taken out of a copy, and the program is asked again.

Each fault is one that the program reports. Lines have their numbers in the source.
"""

from collections.abc import Callable, Sequence
from typing import NamedTuple

from mutants.explanations.copies import Copy
from mutants.explanations.habits import Seen
from mutants.explanations.meanings import MEANINGS
from mutants.explanations.seeing import habits_seen

# How many faults are looked for; in a long source fewer, so that at most this many bytes are read for them.
MOST, MOST_BYTES = 200, 2_000_000
# What the program says against a source: the code and the detail of its fault, or None.
Ask = Callable[[str], tuple[str, str] | None]


class SourceFault(NamedTuple):
    """A fault: its code, its detail, in which a line is one of the source, and the habits that it shows."""

    code: str
    detail: str
    seen: Sequence[Seen] = ()


def is_of_source(copy: Copy, code: str, detail: str) -> bool:
    """Whether a fault of the copy is one of the source, and no consequence of what was taken out."""
    if code not in MEANINGS or code[0] not in "FSC" or code[0] == "C" and copy.has_gap:
        return False
    return code != "C11" or not copy.is_of_open_block(int(detail))


def all_faults(source: str, ask: Ask) -> tuple[list[SourceFault], bool]:
    """The faults of a source in the order in which they are reported, and whether these are all that can be found."""
    copy, faults = Copy(source), dict[tuple[str, str], SourceFault]()
    for _ in range(min(MOST, MOST_BYTES // max(len(source), 1))):
        fault = ask(copy.text())
        if fault is None:
            return list(faults.values()), True
        code, detail = fault
        if not is_of_source(copy, code, detail):
            break
        is_line = MEANINGS[code].detail == "line"
        own = str(copy.own_line(int(detail))) if is_line else detail
        is_again = (code, own) in faults
        if not is_again:
            # Whether an IF is a logical one can be seen as long as it is there; other statements may be only in the
            # copy.
            seen = habits_seen(code, own, source) if code == "C11" else habits_seen(code, detail, copy.text())
            faults[code, own] = SourceFault(code, own, seen)
        if is_again and not (is_line and int(detail) in copy.softened) or not copy.mended(code, detail):
            break
    return list(faults.values()), False
