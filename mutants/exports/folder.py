"""The programs that a file of options names are checked one after the other, with a line on each and a page of all."""

import argparse
import copy
import os
from collections.abc import Callable, Iterator, Sequence
from pathlib import Path
from typing import NamedTuple
from urllib.parse import quote

from mutants.checks.checking import Checked
from mutants.checks.sections import INI, TOML, Sections, file_in, read_sections
from mutants.checks.summary import score_line
from mutants.ending import one_line
from mutants.exports.outputs import assert_made_here
from mutants.files import written
from mutants.pages.index import Entry, index_page
from mutants.program.calling import naming
from mutants.statuses import BELOW, FAULT, MEANINGS, SUCCESS, UNEXPECTED
from mutants.texts.reports import summed

# The statuses from the best to the worst, and what is said of a program with this status.
WORST = (SUCCESS, BELOW, UNEXPECTED, FAULT)
SAID = {BELOW: "BELOW", UNEXPECTED: "NOT AS EXPECTED", FAULT: "FAULT"}
INDEX = "mutants.html"
# Options that are of one program.
OF_ONE = "report json csv junit markdown sarif expect baseline lines changed since unit size equivalent".split()


class Done(NamedTuple):
    """The result of the check of a program: its text, its status, the path of its page, a remark on the build, and
    lines on what changed."""

    checked: Checked
    text: str
    status: int
    page: Path | None
    remark: str
    changes: Sequence[str]


Check = Callable[[argparse.Namespace, str], Done]


def sections_in(folder: Path) -> Sections:
    """The programs of a folder; ValueError where there are none."""
    path = file_in(folder)
    if path is None:
        raise ValueError(f"{folder}: there is neither {INI} nor {TOML}; give PROGRAM.f and TESTS")
    with naming(path):
        sections = read_sections(path)
    if not sections.programs:
        raise ValueError(f"{path}: it names no program: a section has the keys source and tests")
    return sections


def assert_for_many(given: argparse.Namespace) -> None:
    for option in OF_ONE:
        if getattr(given, option, None):
            raise ValueError(f"--{option} is of one program: put it into the section of that program")


def entry_of(source: str, folder: Path, done: Done) -> Entry:
    checked = done.checked
    link = quote(os.path.relpath(done.page, folder)) if done.page else ""
    wrong = "" if done.status == SUCCESS else f"{SAID[done.status]}: {MEANINGS[done.status].partition(',')[0]}"
    count = summed(checked.report.counts.values())
    return Entry(source, link, checked.report.unit, len(checked.job.suite), count, wrong)


class Folder:
    """The checks of a folder, made one after the other."""

    def __init__(self, given: argparse.Namespace, folder: Path, name: str) -> None:
        self.given, self.folder, self.name = given, folder, name
        self.page = given.page or folder / INDEX
        if not given.no_page and not given.page:
            assert_made_here(self.page)
        self.entries: list[Entry] = []
        self.remark, self.status = "", SUCCESS

    def note(self, entry: Entry, status: int) -> None:
        self.entries.append(entry)
        self.status = max(self.status, status, key=WORST.index)

    def lines(self, check: Check) -> Iterator[str]:
        """Checks each program; a line on each as it ends."""
        for program in sections_in(self.folder).programs:
            given, shown = copy.copy(self.given), os.path.relpath(program.source, self.folder)
            given.program, given.tests, given.page = program.source, program.tests, None
            try:
                done = check(given, self.name)
            except (OSError, ValueError) as fault:
                self.note(Entry(shown, wrong=one_line(fault)), FAULT)
                yield f"{shown}: {SAID[FAULT]}: {one_line(fault)}"
                continue
            self.note(entry_of(shown, self.folder, done), done.status)
            self.remark = done.remark
            yield f"{shown}: {score_line(done.checked)}{f' {SAID[done.status]}.' if done.status else ''}"
            yield from (f"  {line}" for line in done.changes)

    def write_page(self) -> None:
        written(self.page, index_page(self.entries, self.remark).encode())
