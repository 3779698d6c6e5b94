"""The file of declarations: a table in CSV with a row for each mutant that is declared equivalent.

Its columns are `mutant`, as ROR 1; `before` and `after`, the statement without and with the change, as `mothra print`
and `mothra list` write them; `reason`; and `where`. The last one may be absent. It is filled where the same two texts
stand on several lines: on how many, and the digests of the statements up to the one that is meant, and from it on.
"""

import re
from collections.abc import Iterable, Mapping, Sequence
from pathlib import Path
from typing import NamedTuple

from mutants.operators import NAMES
from mutants.texts.decoding import decoded
from mutants.texts.separated import row_text, rows_in

COLUMNS = ["mutant", "before", "after", "reason", "where"]
# Columns that a file has to have.
NEEDED = COLUMNS[:3]
NAME = re.compile(r"([A-Z]{3}) ([1-9]\d*)")


class Entry(NamedTuple):
    """A declaration as its file has it, and the line of the file on which it ends."""

    op: str
    place: int
    before: str
    after: str
    reason: str = ""
    where: str = ""
    row: int = 0

    @property
    def name(self) -> str:
        return f"{self.op} {self.place}"

    @property
    def texts(self) -> tuple[str, str, str]:
        """What an entry says of its mutant, without the number."""
        return self.op, self.before, self.after


def entry_of(cells: Mapping[str, str], row: int) -> Entry:
    """The entry of a row of the table."""
    name = NAME.fullmatch(" ".join(cells["mutant"].split()).upper())
    if not name:
        raise ValueError(f"row {row}: {cells['mutant']!r} is no name of a mutant, as ROR 1")
    if name[1] not in NAMES:
        raise ValueError(f"row {row}: there is no operator {name[1]}")
    if not cells["before"].strip() or not cells["after"].strip():
        raise ValueError(
            f"row {row}: {name[0]} has not both texts, that of the line before the change and that after it"
        )
    before, after, reason, where = (cells.get(column, "").strip() for column in COLUMNS[1:])
    return Entry(name[1], int(name[2]), before, after, reason, where, row)


def columns_of(row: Sequence[str]) -> list[str]:
    """The columns that the first row of the table names."""
    columns = [cell.strip().lower() for cell in row]
    if not set(NEEDED) <= set(columns) or len(set(columns)) < len(columns):
        raise ValueError(f"its first row does not name the columns {', '.join(COLUMNS)}")
    return columns


def read_entries(text: str) -> list[Entry]:
    """The entries of a file, in its order."""
    columns: list[str] = []
    entries: list[Entry] = []
    for number, row in rows_in(text, strict=True):
        if not columns:
            columns = columns_of(row)
        elif len(row) > len(columns):
            raise ValueError(f"row {number} has {len(row)} cells, and there are {len(columns)} columns")
        else:
            row += [""] * (len(columns) - len(row))
            entries.append(entry_of(dict(zip(columns, row)), number))
    return entries


def entries_text(entries: Iterable[Entry], has_head: bool = True) -> str:
    """The text of a file with these entries, or without its head the rows to be added to a file."""
    rows = [[entry.name, entry.before, entry.after, entry.reason, entry.where] for entry in entries]
    return "".join(map(row_text, [COLUMNS, *rows] if has_head else rows))


def appended(text: str, entries: Sequence[Entry]) -> str:
    """The text of a file with more entries at its end. Its own rows stay as they are, byte for byte."""
    if not text.strip():
        return entries_text(entries)
    has_columns = columns_of(next(rows_in(text))[1]) == COLUMNS
    if not has_columns:
        return entries_text([*read_entries(text), *entries])
    return text + ("" if text.endswith("\n") else "\n") + entries_text(entries, has_head=False)


def written_entries(path: Path) -> list[Entry]:
    """The entries of a file; none where there is no such file."""
    return read_entries(decoded(path.read_bytes())) if path.exists() else []
