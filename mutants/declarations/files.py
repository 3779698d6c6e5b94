"""Where declarations are kept, and what they say: entries with texts, or a bare list of names.

Beside PROGRAM.f lies PROGRAM.equivalent.csv; for a unit that was picked by its name, PROGRAM.UNIT.equivalent.csv.
A bare list in JSON is read too. Its numbers are not tied to the texts of the program, so a remark comes with it.
"""

import json
from collections.abc import Sequence
from pathlib import Path
from typing import NamedTuple

from mutants.declarations.entries import Entry, read_entries
from mutants.declarations.settling import Present, Settled, settled
from mutants.program.asking import asked_list, asked_print
from mutants.program.calling import naming
from mutants.texts.decoding import decoded
from mutants.texts.jobs import read_job
from mutants.texts.prints import statements_by_line

BARE = (
    "the bare numbers of {} are not tied to the program: once it changes they mean other mutants"
    " (mutants declare ties them)"
)


class Declarations(NamedTuple):
    """A file of declarations: its entries, or the names of a bare list."""

    path: Path
    entries: list[Entry]
    bare: list[str] | None = None


class Meant(NamedTuple):
    """What declarations mean in the present program: the names for a job, their reasons, and remarks on them.

    Without a file of declarations a job does not have the key for them.
    """

    names: list[str]
    reasons: dict[str, str]
    remarks: list[str]
    is_of_file: bool = True


NONE_MEANT = Meant([], {}, [], is_of_file=False)


def path_beside(program: Path, unit: str = "") -> Path:
    """Where the declarations of a program lie, or of a unit of it that was picked by name."""
    middle = f".{unit.lower()}" if unit else ""
    return program.with_name(f"{program.stem}{middle}.equivalent.csv")


def existing_beside(program: Path, unit: str = "") -> Path | None:
    """The file of declarations beside a program: entries, else a bare list, else None."""
    path = path_beside(program, unit)
    return next((each for each in (path, path.with_suffix(".json")) if each.exists()), None)


def read_names(text: str) -> list[str]:
    """The names of a bare list in JSON."""
    names = json.loads(text)
    if not isinstance(names, list) or not all(isinstance(name, str) for name in names):
        raise ValueError('it is no list of names of mutants, as ["ROR 1"]')
    return names


def read_declarations(path: Path) -> Declarations:
    """The declarations of a file; ValueError names the file, and says why it can not be read."""
    with naming(path):
        text = decoded(path.read_bytes())
        if path.suffix.lower() == ".csv":
            return Declarations(path, read_entries(text))
        return Declarations(path, [], read_names(text))


def asked_present(program: str, ops: Sequence[str], job: bytes) -> Present:
    """What mothra says of the program of a job, and of all mutants of these operators."""
    statements = statements_by_line(read_job(job).source, asked_print(program, job))
    listed = asked_list(program, ["--ops", ",".join(ops)], job)[1] if ops else []
    return Present(statements, listed)


def asked_settled(program: str, entries: Sequence[Entry], job: bytes) -> Settled:
    """What entries mean in the program of a job, by what mothra says of it."""
    ops = sorted({entry.op for entry in entries})
    return settled(entries, asked_present(program, ops, job)) if entries else Settled([], [], [])


def meant_by(declarations: Declarations, program: str | None, job: bytes) -> Meant:
    """What declarations mean for a job, whose own declarations do not matter. A bare list needs no program."""
    if declarations.bare is not None:
        return Meant(declarations.bare, {}, [BARE.format(declarations.path)] if declarations.bare else [])
    if program is None:
        raise ValueError(f"{declarations.path}: its entries are looked for in the list of mothra, which is not there")
    meant = asked_settled(program, declarations.entries, job)
    return Meant(meant.names, meant.reasons, [f"{declarations.path}: {remark}" for remark in meant.remarks()])
