"""What is written in Markdown: cells, code and tables as forges show them (GitHub Flavored Markdown)."""

from collections.abc import Iterable, Sequence

CHARACTERS = str.maketrans({"|": "\\|", "<": "&lt;", "`": "'", "\n": " "})


def cell(value: object) -> str:
    return str(value).translate(CHARACTERS)


def code(value: str) -> str:
    """A text as code, in which < stays as it is."""
    return f"`{value.replace('`', chr(39)).replace('|', chr(92) + '|')}`" if value else ""


def row(cells: Iterable[object]) -> str:
    return f"| {' | '.join(map(str, cells))} |"


def table(head: Sequence[str], rows: Iterable[Sequence[object]]) -> list[str]:
    return [row(head), row("---" for _ in head), *map(row, rows)]
