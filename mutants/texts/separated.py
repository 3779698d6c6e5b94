"""Tables in CSV: their rows as cells, and as the text of which these are read."""

import csv
import io
from collections.abc import Iterable, Iterator


def row_text(cells: Iterable[object], end: str = "\n") -> str:
    """The line of a row."""
    line = io.StringIO()
    csv.writer(line, lineterminator=end).writerow(cells)
    return line.getvalue()


def records_in(text: str, strict: bool = False) -> Iterator[tuple[int, list[str], str]]:
    """For each row the number of the line on which it ends, its cells, and its text; ValueError names a line that is no
    row."""
    lines = list(io.StringIO(text, newline=""))
    reader, begin = csv.reader(lines, strict=strict), 0
    try:
        for cells in reader:
            yield reader.line_num, cells, "".join(lines[begin : reader.line_num])
            begin = reader.line_num
    except csv.Error as fault:
        raise ValueError(f"row {reader.line_num}: {fault}") from None


def rows_in(text: str, strict: bool = False) -> Iterator[tuple[int, list[str]]]:
    """The rows that are not blank, each with the number of the line on which it ends."""
    return ((end, cells) for end, cells, _ in records_in(text, strict) if any(map(str.strip, cells)))
