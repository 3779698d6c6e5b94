"""Tables of tests: JSON or CSV, with or without a row of names; and why a cell can not be used."""

import difflib
import json
import re
from collections.abc import Callable, Iterator, Mapping, Sequence
from pathlib import Path
from typing import Any, NamedTuple

from mutants.english import joined_words, plural
from mutants.files import bytes_of
from mutants.jobs.cells import LONGEST, TRUTHS, checked_value, is_blank, read_cell
from mutants.texts.decoding import decoded
from mutants.texts.separated import rows_in

NAME = re.compile(r"[A-Za-z][A-Za-z0-9]*")
# A column with a meaning of its own beside those of the dummy arguments; and columns that may name the tests.
EXPECT, TITLES = "EXPECT", ("TEST", "NAME")
Cells = list[Any]


class Table(NamedTuple):
    """The tests; for each the row of the table where it stands; further columns by name; remarks on it all; and
    the columns that its first row names, if it does."""

    tests: list[list[Any]]
    rows: list[int]
    others: dict[str, list[Any]]
    remarks: list[str]
    columns: list[str] = []

    @property
    def expected(self) -> dict[int, str]:
        """What is expected of the program, by test, from 1."""
        cells = enumerate(self.others.get(EXPECT, []), 1)
        return {number: "" if cell is None else str(cell) for number, cell in cells}


class Cell(NamedTuple):
    """Where a cell stands: its row and its column, from 1, and the dummy argument that it is for,
    where that is known."""

    row: int
    column: int
    name: str = ""

    def place(self) -> str:
        return f"row {self.row}, column {self.column}" + (f" ({self.name})" if self.name else "")


def rows_of_json(text: str) -> Iterator[tuple[int, Cells]]:
    tests = json.loads(text)
    if not isinstance(tests, list):
        raise ValueError("the table is no list of tests")
    for number, test in enumerate(tests, 1):
        if not isinstance(test, list):
            raise ValueError(f"row {number} is no list of values: {json.dumps(test)[:LONGEST]}")
        yield number, test


def names_in(cells: Cells) -> list[str]:
    """The cells of a row of names, in upper case."""
    return [str(cell).strip().upper() for cell in cells]


def is_head(cells: Cells, dummies: Sequence[str]) -> bool:
    """Whether a row has names: those of all dummy arguments, or names alone. T and F are truth values then."""
    if not cells or not all(isinstance(cell, str) for cell in cells):
        return False
    names = names_in(cells)
    if dummies and set(dummies) <= set(names):
        return True
    return all(map(NAME.fullmatch, names)) and not set(names) <= set(TRUTHS)


def columns_of(row: int, cells: Cells, dummies: Sequence[str]) -> list[str]:
    """The columns that a row of names has: each dummy argument, once, and others beside them, as remarks are."""
    names, missing = names_in(cells), [name for name in dummies if name not in names_in(cells)]
    known = f"the dummy arguments are {joined_words(dummies) or 'none'}"
    for column, name in enumerate(names, 1):
        where = Cell(row, column).place()
        if name in names[: column - 1] and name:
            raise ValueError(f"{where}: {name} stands twice")
        if name not in dummies and name != EXPECT and missing:
            raise ValueError(f"{where}: {name} is no dummy argument; {known}")
        if name not in dummies and name != EXPECT and difflib.get_close_matches(name, [EXPECT], 1, 0.8):
            raise ValueError(f"{where}: {name} is no column that is known; is {EXPECT.lower()} meant?")
    for name in missing:
        raise ValueError(f"row {row} names no column for {name}; {known}")
    return names


def shape_fault(row: int, cells: Cells, columns: Sequence[str], is_text: bool) -> str:
    """Why a row can not be used, if it does not have as many cells as there are columns."""
    wanted = f"{len(columns)} are wanted: {', '.join(columns)}" if columns else "there is no dummy argument"
    count = f"row {row} has {plural(len(cells), 'cell')}, and {wanted}"
    if is_text and len(cells) == 1 and ";" in cells[0]:
        return f"{Cell(row, 1).place()}: {cells[0].strip()[:LONGEST]!r} has semicolons: cells are separated by commas"
    if is_text and len(cells) == 1 and len(cells[0].split()) > 1:
        shown = cells[0].strip()[:LONGEST]
        return f"{count} (blanks make one array of {shown!r}: cells are separated by commas)"
    return count


class Reading:
    """Reads the rows of a table, one after the other."""

    def __init__(self, dummies: Sequence[str] | None, blanks: Mapping[str, Any]) -> None:
        self.dummies, self.names = dummies, dummies or []
        self.blanks, self.left_blank = blanks, dict[str, str]()
        self.columns: list[str] = []
        self.table = Table([], [], {}, [])

    def value(self, cell: Cell, given: Any, read: Callable[[Any], Any]) -> Any:
        if is_blank(given) and cell.name in self.blanks:
            value = self.blanks[cell.name]
            is_truth = isinstance(value[0] if isinstance(value, list) else value, bool)
            self.left_blank[cell.name] = "F" if is_truth else "0"
            return value
        if is_blank(given) and cell.name and self.dummies is not None:
            raise ValueError(f"{cell.place()}: the cell is empty, and the program reads {cell.name}")
        try:
            return read(given)
        except ValueError as fault:
            raise ValueError(f"{cell.place()}: {fault}") from None

    def add(self, row: int, cells: Cells, read: Callable[[Any], Any], is_text: bool) -> None:
        """Adds the test of a row."""
        columns = self.columns or list(self.names)
        wanted = self.columns or self.dummies is not None
        if wanted and len(cells) != len(columns):
            raise ValueError(shape_fault(row, cells, columns, is_text))
        named = [*columns, *[""] * (len(cells) - len(columns))]
        values = {}
        for place, given in enumerate(cells):
            if named[place] not in self.names and (named[place] or self.columns):
                self.table.others.setdefault(named[place], []).append(given)
            else:
                values[place] = self.value(Cell(row, place + 1, named[place]), given, read)
        order = [self.columns.index(name) for name in self.names] if self.columns else list(values)
        self.table.tests.append([values[place] for place in order])
        self.table.rows.append(row)
        if is_text and len(cells) == 1 and isinstance(values.get(0), list) and not self.table.remarks:
            name = f", for {named[0]}" if named[0] else ""
            remark = f"row {row}: {cells[0].strip()[:LONGEST]!r} is one array of {len(values[0])} elements{name}"
            self.table.remarks.append(remark)

    def take(self, rows: Iterator[tuple[int, Cells]], read: Callable[[Any], Any], is_text: bool) -> Table:
        for place, (row, cells) in enumerate(rows):
            if place == 0 and self.dummies is not None and is_head(cells, self.names):
                self.columns = columns_of(row, cells, self.names)
            else:
                self.add(row, cells, read, is_text)
        shown = joined_words(f"{name} ({value})" for name, value in self.left_blank.items())
        more = [f"cells that are left blank have the value behind each, since it is only set: {shown}"] if shown else []
        return self.table._replace(columns=self.columns, remarks=self.table.remarks + more)


def titles_of(table: Table) -> list[str]:
    """The names of the tests, where a column has them."""
    columns = [table.others[name] for name in TITLES if name in table.others]
    column = columns[0] if columns else []
    return ["" if is_blank(cell) else " ".join(str(cell).split()) for cell in column]


def read_table(path: Path, dummies: Sequence[str] | None = None, blanks: Mapping[str, Any] = {}) -> Table:
    """The table of a file for these dummy arguments, which are None where they are not known. `blanks` has values for
    blank cells of some of them."""
    text = decoded(bytes_of(path))
    reading = Reading(dummies, blanks)
    if path.suffix.lower() == ".csv":
        return reading.take(rows_in(text), read_cell, True)
    return reading.take(rows_of_json(text), checked_value, False)
