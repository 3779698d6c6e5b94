"""The page of a folder: its programs with their scores, and what is wrong with each."""

from collections.abc import Sequence
from typing import NamedTuple

from mutants.english import plural
from mutants.pages.frame import Cell, bar, numbers, page, table, text
from mutants.pages.report import KIND
from mutants.texts.reports import Count, score_of


class Entry(NamedTuple):
    """A program: its file, its page (no text where there is none), the counts of its mutants, and what is wrong."""

    program: str
    link: str = ""
    unit: str = ""
    tests: int = 0
    counted: Count = Count(0, 0, 0)
    wrong: str = ""


HEAD: list[Cell] = [
    ("", "Program"), ("", "Unit"), ("n", "Tests"), ("n", "Mutants"), ("n", "Survive"), ("n", "Score"), ("bar", ""),
    ("", "What is wrong"),
]  # fmt: skip


def cells_of(entry: Entry) -> list[Cell]:
    name, count = text(entry.program), entry.counted
    score = score_of(count) if entry.unit else ""
    return [
        ("", f'<a href="{text(entry.link)}">{name}</a>' if entry.link else name),
        ("", text(entry.unit)),
        *numbers(entry.tests, count.wanted, count.survived, "no score" if score == "NONE" else score),
        ("bar", bar(count.killed, count.wanted)),
        ("", f'<span class="live">{text(entry.wrong)}</span>' if entry.wrong else ""),
    ]


def index_page(entries: Sequence[Entry], remark: str = "") -> str:
    """The page of the programs, in the order of their file."""
    wrong = sum(bool(entry.wrong) for entry in entries)
    warning = f"{plural(len(entries), 'program')}, {wrong} with something wrong." if wrong else ""
    head = f"<h1>{plural(len(entries), 'program')}: which mutants their tests kill</h1>\n"
    head += f'<p class="warn"><b>{warning}</b></p>\n' if warning else ""
    head += f'<p class="warn">{text(remark)}</p>\n' if remark else ""
    title = f"{plural(len(entries), 'program')}: {KIND}"
    return page(title, head, table(HEAD, map(cells_of, entries), label="The programs", does_sort=True))
