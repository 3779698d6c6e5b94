"""The column `expect` of a table in CSV, filled with what the program does; all other text stays as it is."""

from collections.abc import Mapping, Sequence

from mutants.jobs.tables import EXPECT, Cells, Table
from mutants.texts.separated import records_in, row_text


def with_cell(cells: Cells, place: int, text: str) -> Cells:
    """A row with another cell at a place, which may be just after its last cell."""
    return [*cells[:place], text, *cells[place + 1 :]]


def filled(text: str, table: Table, dummies: Sequence[str], outcomes: Mapping[int, str]) -> str:
    """The text of a table with these outcomes, by the numbers of the tests from 1, as what is expected. A table without
    a row of names gets one."""
    newline = "\r\n" if "\r\n" in text else "\n"
    columns = table.columns or list(dummies)
    place = columns.index(EXPECT) if EXPECT in columns else len(columns)
    by_row = {row: outcomes.get(number, "") for number, row in enumerate(table.rows, 1)}
    lines = [] if table.columns else [row_text([*columns, EXPECT.lower()], newline)]
    for row, cells, line in records_in(text):
        is_head = bool(table.columns) and any(map(str.strip, cells)) and row < min(table.rows, default=row + 1)
        if is_head and place == len(columns):
            line = row_text([*cells, EXPECT.lower()], newline)
        elif row in by_row and (by_row[row] or place == len(cells)):
            line = row_text(with_cell(cells, place, by_row[row]), newline)
        lines.append(line)
    return "".join(lines)
