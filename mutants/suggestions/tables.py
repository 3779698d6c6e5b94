"""Rows as the table of the tests has them, and the whole table with them."""

import json
from collections.abc import Collection, Sequence
from pathlib import Path
from typing import NamedTuple

from mutants.jobs.tables import Table
from mutants.suggestions.shapes import Row, Scalar, Value, items_of, test_of
from mutants.texts.decoding import decoded
from mutants.texts.separated import records_in, row_text


class Layout(NamedTuple):
    """How a table is written: in JSON or CSV; with which columns; and which of these are arguments, by their places."""

    is_json: bool
    places: list[int | None]

    def line(self, row: Row) -> str:
        """A row as a line of the table, without its end. Other columns, such as `expect`, stay empty."""
        if self.is_json:
            return json.dumps(test_of(row))
        return row_text(("" if place is None else cell_of(row[place]) for place in self.places), end="")


def word_of(item: Scalar) -> str:
    return "FT"[item] if isinstance(item, bool) else str(item)


def cell_of(value: Value) -> str:
    """A value as a cell of CSV has it: an array with blanks between its elements."""
    return " ".join(map(word_of, items_of(value)))


def layout_of(path: Path, table: Table, names: Sequence[str]) -> Layout:
    """How the rows of a table of this file are written for these dummy arguments."""
    columns = table.columns or list(names)
    return Layout(path.suffix.lower() != ".csv", [names.index(each) if each in names else None for each in columns])


def table_with(path: Path, table: Table, lines: Sequence[str], needless: Collection[int]) -> str:
    """The table of a file, with these rows after its own, and without the tests with the numbers `needless`, from 1."""
    text = decoded(path.read_bytes())
    if path.suffix.lower() != ".csv":
        old = [json.dumps(test) for number, test in enumerate(table.tests, 1) if number not in needless]
        return "[\n  " + ",\n  ".join([*old, *lines]) + "\n]\n"
    end = "\r\n" if "\r\n" in text else "\n"
    ends = {table.rows[number - 1] for number in needless}
    kept = "".join(row for number, _, row in records_in(text) if number not in ends)
    return kept + ("" if not kept or kept.endswith("\n") else end) + "".join(line + end for line in lines)
