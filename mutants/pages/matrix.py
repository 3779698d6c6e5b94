"""The kill matrix: a fold for each operator, with panels that have a row for each test and a column for each mutant.

A cell is filled where the test kills the mutant. A column has a title with the change and the tests; those of one line
are a link to it. Under a column is a mark where no test kills the mutant: filled for a survivor, hollow for one
that is declared equivalent. Panels are as wide as a small screen, so a long list has several. The cells of a panel are
a small picture: so a matrix of thousands of mutants takes little room.
"""

from collections.abc import Mapping, Sequence
from functools import lru_cache
from itertools import groupby
from typing import NamedTuple

from mutants.operators import NAMES
from mutants.pages.frame import text
from mutants.pages.kill_sets import kill_sets_part, ranges_of
from mutants.pages.pixels import source_of
from mutants.texts.lines import Mutant
from mutants.texts.reports import Row, tests_in
from mutants.texts.spans import change_of

# The width of a cell; how many mutants stand in a panel, each tenth with a number; how many cells a matrix may have.
WIDE, TOGETHER, TENTH, MOST = 4, 80, 10, 400_000
# Up to how many mutants all operators but ABS are unfolded, and how many columns have titles at most.
UNFOLDED, TITLED = 600, 4_000
# How many characters of a piece of a change are in a title, and how many tests.
PIECE, NAMED = 16, 4
MARKS = {"S": "s", "E": "e"}


class Column(NamedTuple):
    """A mutant, its row of the report, and its statement."""

    mutant: Mutant
    row: Row
    statement: str


def height_of(tests: int) -> int:
    """How high a row is. Where there are few rows, each has room for its number."""
    return 12 if tests <= 20 else 10 if tests <= 40 else 4


def thinned(columns: Sequence[Column], tests: int) -> tuple[list[Column], int]:
    """Each q-th column of each operator, and q, which is 1 where the picture has room for all."""
    every = -(-len(columns) * max(tests, 1) // MOST) or 1
    groups = groupby(columns, key=lambda column: column.row.op)
    return [column for _, group in groups for column in list(group)[::every]], every


def shortened(piece: str) -> str:
    return piece if len(piece) <= PIECE else piece[: PIECE - 2] + ".."


# The pages of a class show the same mutants many times.
@lru_cache(maxsize=65_536)
def change_text(statement: str, mutant: str) -> str:
    """What a mutant changes, as HTML."""
    change = change_of(statement, mutant)
    return text(f"{shortened(change.old)} \u2192 {shortened(change.new)}")


def title_of(column: Column) -> str:
    """What a mutant changes, and the first tests that kill it, as HTML."""
    change = change_text(column.statement, column.mutant.text)
    numbers = tests_in(column.row.bits)
    tests = ranges_of(numbers[:NAMED]) + (f" +{len(numbers) - NAMED}" if numbers[NAMED:] else "")
    return f"{column.row.op} {column.row.place}: {change}; {tests or 'no test'}"


def column_part(column: Column, is_titled: bool) -> str:
    mark = MARKS.get(column.row.status, "")
    kind = f' class="{mark}"' if mark else ""
    return f'<u{kind} title="{title_of(column)}"></u>' if is_titled else f"<u{kind}></u>"


def link_parts(columns: Sequence[Column], is_titled: bool) -> str:
    """The columns, those of one line as a link to it."""
    parts = []
    for line, group in groupby(columns, key=lambda column: column.mutant.line):
        inner = "".join(column_part(column, is_titled) for column in group)
        parts.append(f'<a href="#L{line}" aria-label="line {line}">{inner}</a>')
    return "".join(parts)


def number_parts(tests: int, kills: Sequence[int], high: int) -> tuple[str, str]:
    """The numbers of the tests, and how many of these mutants each kills; of many tests each tenth number alone."""
    if high < TENTH:
        return "<br>".join(map(str, range(TENTH, tests + 1, TENTH))), ""
    return "<br>".join(map(str, range(1, tests + 1))), "<br>".join(str(count or "") for count in kills)


def panel(columns: Sequence[Column], tests: int, is_titled: bool) -> str:
    """Some mutants of an operator."""
    high = height_of(tests)
    lines = ["".join(column.row.bits[test] for column in columns) for test in range(tests)]
    first, last = columns[0].row, columns[-1].row
    size = f'width="{len(columns) * WIDE}" height="{tests * high}"'
    image = f'<img alt="Which tests kill {first.op} {first.place} to {last.place}" {size} src="{source_of(lines)}">'
    tenths = [str(column.row.place) for column in columns[TENTH - 1 :: TENTH]] or [""]
    axis = f"<b><i>{first.place}</i>{tenths[0]}</b>" + "".join(f"<b>{place}</b>" for place in tenths[1:])
    numbers, kills = number_parts(tests, [line.count("1") for line in lines], high)
    return (
        f'<figure class="panel"><div class="axis" aria-hidden="true">{axis}</div>'
        f'<div class="tests h{high}" aria-hidden="true">{numbers}</div>'
        f'<div class="cells">{image}<div>{link_parts(columns, is_titled)}</div></div>'
        f'<div class="h{high}" aria-hidden="true">{kills}</div></figure>\n'
    )


def in_panels(columns: Sequence[Column]) -> list[Sequence[Column]]:
    """Columns in parts of about the same length, none longer than a panel."""
    count = -(-len(columns) // TOGETHER)
    return [columns[part * len(columns) // count : (part + 1) * len(columns) // count] for part in range(count)]


def fold(columns: Sequence[Column], killed: str, tests: int, count: int) -> str:
    """An operator with its panels. ABS, whose mutants are equivalent most often, is folded."""
    op = columns[0].row.op
    is_open = " open" if count <= UNFOLDED and op != "ABS" else ""
    panels = "".join(panel(part, tests, count <= TITLED) for part in in_panels(columns))
    summary = f"<b>{text(op)}</b> {text(NAMES.get(op, ''))}: {killed}"
    return f'<details{is_open}><summary>{summary}</summary><div class="panels">\n{panels}</div></details>\n'


def key(every: int, is_titled: bool) -> str:
    legend = (
        "A row is a test, a column a mutant of the operator, by its number; a cell is filled where the test kills the"
        " mutant. A triangle stands under a mutant that no test kills; it is hollow where the mutant is declared"
        " equivalent. The number behind a row is how many of these mutants the test kills."
    )
    legend += " A column leads to the line of its mutant"
    legend += "; its title has the change and the first tests that kill it." if is_titled else "."
    if every > 1:
        legend += f" So that there are no more than {MOST:,} cells, each {every}th mutant of each operator is shown."
    return f"<p>{legend}</p>\n"


def matrix_part(listed: Sequence[Mutant], rows: Sequence[Row], statements: Mapping[int, str], tests: int) -> str:
    """The folds of all operators that have mutants, with a sentence on how to read them, and the same as a table."""
    if not tests or not rows:
        return "<p>There is no test, or no mutant, and so no matrix.</p>\n"
    columns = [Column(mutant, row, statements[mutant.line]) for mutant, row in zip(listed, rows)]
    shown, every = thinned(columns, tests)
    folds = []
    for op, group in groupby(shown, key=lambda column: column.row.op):
        statuses = [row.status for row in rows if row.op == op]
        killed = f"{sum(status in 'KW' for status in statuses)} of {len(statuses)} killed"
        folds.append(fold(list(group), killed, tests, len(shown)))
    legend = key(every, len(shown) <= TITLED)
    return f'{legend}<div class="matrix">\n{"".join(folds)}{kill_sets_part(rows)}</div>\n'
