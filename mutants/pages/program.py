"""The program on a page: each line with its marks, and after each statement its survivors with what they change."""

from collections.abc import Mapping, Sequence
from typing import NamedTuple

from mutants.pages.frame import bar, text
from mutants.pages.survivors import MARKS, NO_REMARKS, declared_part, survivors_part
from mutants.texts.cards import is_comment, last_lines, source_lines
from mutants.texts.differences import pieces
from mutants.texts.lines import Mutant
from mutants.texts.reports import Count


def difference(old: str, new: str) -> str:
    """The two statements as one text in which what is gone and what is new are marked."""
    return "".join(MARKS[mark].format(text(piece)) for mark, piece in pieces(old, new))


def marks_of(count: Count, survived: int) -> str:
    """The marks of a line: a bar, how many mutants are killed, and how many survive."""
    killed = f"{count.killed} of {count.total}"
    if survived:
        last = f'<span class="live">{survived} survive{"s" if survived == 1 else ""}</span>'
    else:
        last = f"<span>{count.equivalent} equivalent</span>" if count.equivalent else "<span>all killed</span>"
    return f'<span class="marks"><span>{bar(count.killed, count.total)}</span><span>{killed}</span>{last}</span>'


def line_part(number: int, line: str, count: Count | None, survived: int, has_link: bool) -> str:
    """A line of the source. On a page with one program it can be linked to."""
    marks = marks_of(count, survived) if count else '<span class="marks"></span>'
    kind = "line remark" if is_comment(line) else "line"
    link = f' id="L{number}"' if has_link and count else ""
    cells = f'<span class="number">{number}</span><span class="source">{text(line) or " "}</span>{marks}'
    return f'<div class="{kind}"{link}>{cells}</div>\n'


def numbered_lines(source: str) -> list[tuple[int, str]]:
    """The lines with their numbers. Blank lines at both ends, where other units of the file stand, are left out."""
    lines = list(enumerate(source_lines(source), 1))
    kept = [number for number, line in lines if line.strip()] or [0]
    return lines[max(kept[0] - 1, 0) : kept[-1]]


class AtLines(NamedTuple):
    """By the initial line of a statement: the counts of its mutants, and those that survive, are declared, or are
    proved."""

    counts: Mapping[int, Count]
    survivors: Mapping[int, Sequence[Mutant]]
    declared: Mapping[int, Sequence[Mutant]]
    proved: Mapping[int, Sequence[Mutant]]
    # What is said of mutants, by their names: why the declared and the proved ones are equivalent, and of which boxes
    # no row kills a survivor.
    remarks: Mapping[str, str] = NO_REMARKS


def program_part(source: str, statements: Mapping[int, str], marked: AtLines, has_links: bool = False) -> str:
    """The whole program with its mutants.

    The mutants of a statement stand after its last line, so that its lines stay together.
    """
    ends, parts = last_lines(source), []
    initial = {ends.get(line, line): line for line in {*marked.survivors, *marked.declared, *marked.proved}}
    for number, line in numbered_lines(source):
        alive = len(marked.survivors.get(number, []))
        parts.append(line_part(number, line, marked.counts.get(number), alive, has_links))
        if number in initial:
            first = initial[number]
            living, others, sure = (each.get(first, []) for each in (marked.survivors, marked.declared, marked.proved))
            parts += [survivors_part(living, statements[first], marked.remarks)] if living else []
            parts += [declared_part(others, statements[first], marked.remarks)] if others else []
            parts += [declared_part(sure, statements[first], marked.remarks, "proved")] if sure else []
    return '<div class="program">\n' + "".join(parts) + "</div>\n"
