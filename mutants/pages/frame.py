"""What all pages share: the frame with its style, bars, tables, and texts that are safe in HTML.

A page is one file: it loads no script, font or image, and can be read without the script that it has. One can read it
without colours, since each colour has a word or a form beside it. Bars are drawn, so that they are printed too.
"""

from collections.abc import Iterable
from html import escape

from mutants.pages.style import SCRIPT, STYLE
from mutants.words import visible

# A cell of a table: its class, and what stands in it.
Cell = tuple[str, object]

def text(value: object) -> str:
    """A value as text in HTML, safe between tags and in attributes; what cannot be seen is shown as U+FFFD."""
    shown = str(value)
    return escape(shown if shown.isprintable() else visible(shown), quote=True)


def bar(part: int, whole: int, said: str = "") -> str:
    """A bar of which a part is full. It has a text for screen readers unless the same stands beside it."""
    share = 100 * part / whole if whole else 0
    label = f'role="img" aria-label="{text(said)}"' if said else 'aria-hidden="true"'
    return f'<svg class="full" {label}><rect width="{share:.3g}%" height="100%"/></svg>'


def cell_part(cell: Cell, scope: str = "") -> str:
    """A cell, or the head of a row or column, as the scope says."""
    (mark, inner), tag = cell, f'th scope="{scope}"' if scope else "td"
    kind = f' class="{mark}"' if mark else ""
    return f"<{tag}{kind}>{inner}</{tag[:2]}>"


def headed_row(cells: Iterable[Cell]) -> str:
    """A row whose first cell is its head."""
    first, *rest = cells
    return f"<tr>{cell_part(first, 'row')}{''.join(map(cell_part, rest))}</tr>\n"


def head_row(cells: Iterable[Cell]) -> str:
    """The row of the heads of columns. A head without a word is a plain cell."""
    return f"<tr>{''.join(cell_part(cell, 'col' if cell[1] else '') for cell in cells)}</tr>"


def numbers(*values: object) -> list[Cell]:
    """Cells of numbers, in a row."""
    return [("n", value) for value in values]


def table(
    head: Iterable[Cell],
    rows: Iterable[Iterable[Cell]],
    foot: Iterable[Cell] | None = None,
    label: str = "",
    does_sort: bool = False,
) -> str:
    """A table of rows, whose cells are HTML. The first cell of each row is its head. A script may sort the table."""
    feet = f"<tfoot>{headed_row(foot)}</tfoot>\n" if foot else ""
    kind = (' class="sorts"' if does_sort else "") + (f' aria-label="{text(label)}"' if label else "")
    inner = f"<thead>{head_row(head)}</thead>\n<tbody>\n{''.join(map(headed_row, rows))}</tbody>\n{feet}"
    return f"<table{kind}>\n{inner}</table>\n"


def remark_part(remark: str) -> str:
    """What a page says at its top, if anything, about the programs that its contents come from."""
    return f'<p class="warn"><b>{text(remark)}</b></p>\n' if remark else ""


def sections(parts: Iterable[tuple[str, str, str]]) -> tuple[str, str]:
    """Links to sections, and the sections themselves. Each is given by its name, its title and its HTML."""
    every = list(parts)
    links = "".join(f'<a href="#{name}">{title}</a> ' for name, title, _ in every)
    bodies = "".join(
        f'<section aria-labelledby="{name}">\n<h2 id="{name}">{title}</h2>\n{inner}</section>\n'
        for name, title, inner in every
    )
    return f'<nav aria-label="Parts of this page">{links}</nav>\n', bodies


def page(title: str, head: str, body: str) -> str:
    """A whole page, of HTML: its top, and its body."""
    return (
        '<!DOCTYPE html>\n<html lang="en">\n<head>\n<meta charset="utf-8">\n'
        '<meta name="viewport" content="width=device-width, initial-scale=1">\n'
        f"<title>{text(title)}</title>\n<style>{STYLE}</style>\n</head>\n<body>\n"
        f"<header>\n{head}</header>\n<main>\n{body}</main>\n<script>{SCRIPT}</script>\n</body>\n</html>\n"
    )
