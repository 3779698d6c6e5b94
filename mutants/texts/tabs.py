"""Tabs in a source: where they stand in the way of a statement, and lines without them.

FORTRAN 77 has no tab. The way of DEC's compilers became the custom, and gfortran follows it: a first tab in columns 1
to 6 leads to column 7, or to column 6 where a digit from 1 to 9 follows, and the line is then a continuation line. Any
other tab is a blank.
"""

from mutants.texts.cards import is_comment


def has_tab(line: str) -> bool:
    """Whether a tab stands in columns 1 to 72 of a line that is no comment."""
    return "\t" in line[:72] and not is_comment(line)


def without_tabs(line: str) -> str:
    """A line whose tabs are blanks; a comment is left as it is."""
    if not has_tab(line):
        return line
    front, _, rest = line.partition("\t")
    rest = rest.replace("\t", " ")
    if len(front) > 5:
        return f"{front} {rest}"
    return front.ljust(5 if rest[:1] in tuple("123456789") else 6) + rest


def written_column(line: str, column: int) -> int:
    """The column of a character in the line as it is written, from its column in the line without tabs."""
    if not has_tab(line) or column <= line.index("\t"):
        return column
    return column - (len(without_tabs(line)) - len(line))
