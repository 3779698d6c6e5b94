"""Why a check can not be made, in one line for its user."""

from collections.abc import Iterator, Sequence
from contextlib import contextmanager
from pathlib import Path

from mutants.explanations.meanings import MEANINGS
from mutants.explanations.seeing import habits_seen, said_of_all
from mutants.program.calling import Fault
from mutants.texts.cards import source_lines

# So much of a line of the program is shown.
LONGEST = 80


def said_of(line: str) -> str:
    """What the line of a fault means, and the line itself."""
    code = line.removeprefix("FAULT ").split(" ")[0]
    meaning = MEANINGS.get(code) if line.startswith("FAULT ") else None
    return f"{meaning.says} ({line})" if meaning else line


def program_fault(path: Path, source: str, shown: str, fault: Fault) -> ValueError:
    """Why a program can not be read, with its line where the fault has one; other faults stay as they are.

    Where the fault shows a habit of other Fortran, the habit is named. It is looked for in the source of the job, where
    bounds have their values; the line is given as it is shown.
    """
    code, _, detail = fault.line.removeprefix("FAULT ").partition(" ")
    meaning = MEANINGS.get(code) if fault.line.startswith("FAULT ") else None
    if not meaning or code[0] not in "JFSCO":
        return fault
    lines, seen = source_lines(shown), said_of_all(habits_seen(code, detail, source))
    said = f"{' '.join(seen)} ({fault.line})" if seen else said_of(fault.line)
    if meaning.detail != "line" or not detail.isdecimal() or not 0 < int(detail) <= len(lines):
        return ValueError(f"{path}: {said}")
    line = " ".join(lines[int(detail) - 1].split())[:LONGEST]
    return ValueError(f"{path}, line {detail}: {said}: {line}")


@contextmanager
def naming_line(path: Path, source: str, shown: str) -> Iterator[None]:
    """Inside this context a fault of a program gets its line."""
    try:
        yield
    except Fault as fault:
        raise program_fault(path, source, shown, fault) from None


def run_fault(declared: Sequence[object], fault: Fault) -> ValueError:
    """Why the mutants can not be run, where a declared mutant is named. What is no such fault stays as it is."""
    code, _, detail = fault.line.removeprefix("FAULT ").partition(" ")
    if not fault.line.startswith("FAULT "):
        return fault
    if code in ("J5", "B5", "B6") and detail.isdecimal() and 0 < int(detail) <= len(declared):
        return ValueError(f"declared mutant {declared[int(detail) - 1]}: {said_of(fault.line)}")
    return ValueError(said_of(fault.line))
