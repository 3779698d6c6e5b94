"""Numbers that stand in a row."""

from collections.abc import Iterable


def rows_of(numbers: Iterable[int]) -> list[list[int]]:
    """Numbers in ascending order: those in a row by the first and the last of them, others alone."""
    rows: list[list[int]] = []
    for number in numbers:
        if rows and rows[-1][-1] == number - 1:
            rows[-1] = [rows[-1][0], number]
        else:
            rows.append([number])
    return rows
