"""The files that a check writes."""

import argparse
import os
from collections.abc import Callable, Sequence
from pathlib import Path
from typing import NamedTuple

from mutants.checks.checking import Checked
from mutants.exports.junit import junit_text
from mutants.exports.markdown import markdown_text
from mutants.exports.mutation_report import mutation_report_text
from mutants.exports.rows import table_text
from mutants.exports.sarif import sarif_text
from mutants.files import written
from mutants.pages.report import KIND, Analysed, Outcomes, report_page
from mutants.texts.report_lines import report_text

# How the title of a page ends, and within how many bytes of the file.
TITLE, TOP = f": {KIND}</title>", 1000


class Shown(NamedTuple):
    """What the files are made of: a check, its files, a remark for them, for each line the tests that come to it, and
    lines on what changed."""

    checked: Checked
    program: Path
    tests: Path
    remark: str
    covered: dict[int, str]
    changes: Sequence[str] = ()


class Output(NamedTuple):
    """A file: its name in the summary, its path, its text, and whether that needs to know which tests come where."""

    what: str
    path: Path
    text: Callable[[Shown], str]
    needs_cover: bool = False


def page_text(shown: Shown) -> str:
    checked = shown.checked
    remarks = [shown.remark, *(f"Left out: {each}." for each in checked.left_out)]
    remark = " ".join(each for each in remarks if each)
    outcomes = Outcomes(checked.outcomes, {each.test: each.expected for each in checked.unexpected})
    analysed = Analysed(checked.job, checked.printed, checked.listed, checked.report)
    return report_page(analysed, remark, outcomes, checked.said)


def json_text(shown: Shown) -> str:
    return mutation_report_text(shown.checked, shown.covered, shown.program, shown.tests, shown.remark)


def markdown_of(shown: Shown) -> str:
    remarks = [*shown.changes, *([shown.remark] if shown.remark else [])]
    return markdown_text(shown.checked, shown.program, remarks)


def read_files(given: argparse.Namespace) -> list[Path]:
    """The files that the check reads, and that lie on a disk."""
    paths = [given.program, given.tests, given.expect, given.changed, given.equivalent, given.baseline]
    return [path for path in paths if path is not None and path.is_file()]


def assert_made_here(path: Path) -> None:
    """Refuses to write a page, at a path that nobody gave, over a file that is no page of a check."""
    if path.is_file() and TITLE not in path.read_bytes()[:TOP].decode("utf-8", "replace"):
        raise ValueError(f"{path}: no check has written it, so it stays; --page {path} takes its place")


def assert_free(outputs: Sequence[Output], reads: Sequence[Path]) -> None:
    """Refuses files that have no folder, or would take the place of another one or of one that is read."""
    for place, output in enumerate(outputs):
        path, folder = output.path, output.path.parent
        if not folder.is_dir():
            raise ValueError(f"{path}: there is no folder {folder}")
        if path.is_dir():
            raise ValueError(f"{path}: it is a folder, and the {output.what} is a file")
        if path.exists() and not path.is_file():
            # A pipe or a terminal may be written to by several.
            continue
        if not os.access(path.resolve().parent, os.W_OK):
            raise ValueError(f"{path}: nothing may be written in the folder {folder}")
        if path.exists() and any(path.samefile(read) for read in reads):
            raise ValueError(f"{path}: the check reads it, and the {output.what} would take its place")
        if any(path.resolve() == other.path.resolve() for other in outputs[:place]):
            raise ValueError(f"{path}: two files are to be written there")


def page_of(given: argparse.Namespace) -> Path:
    """Where the page of a program lies."""
    path: Path = given.page or given.program.with_suffix(".html")
    return path


def outputs_of(given: argparse.Namespace) -> list[Output]:
    """The files that are asked for. Whether each can be written is tested before anything is run."""
    page = None if given.no_page else page_of(given)
    asked: list[tuple[str, Path | None, Callable[[Shown], str], bool]] = [
        ("page", page, page_text, False),
        ("report", given.report, lambda shown: report_text(shown.checked.whole), False),
        ("mutants in JSON", given.json, json_text, True),
        ("table of mutants", given.csv, lambda shown: table_text(shown.checked, shown.covered), True),
        ("report of tests", given.junit, lambda s: junit_text(s.checked, s.program, s.remark), False),
        ("summary in Markdown", given.markdown, markdown_of, False),
        ("survivors in SARIF", given.sarif, lambda s: sarif_text(s.checked, s.program, s.remark), False),
    ]
    outputs = [Output(what, path, text, needs) for what, path, text, needs in asked if path]
    assert_free(outputs, read_files(given))
    if page and (given.page is None or "page" in given.from_file):
        assert_made_here(page)
    return outputs


def write_outputs(outputs: Sequence[Output], shown: Shown) -> list[str]:
    """Writes them; a line on each."""
    texts = [output.text(shown) for output in outputs]
    for output, text in zip(outputs, texts):
        # A name that is no UTF-8 would else fail after all the work.
        written(output.path, text.encode("utf-8", "replace"))
    return [f"The {output.what}: {output.path}" for output in outputs]
