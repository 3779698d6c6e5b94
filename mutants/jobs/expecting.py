"""What is expected of the program on each test: a column `expect` of a table in CSV, or a file of its own.

A table with such a column has a header, whose other names are those of the dummy arguments.
"""

import json
from pathlib import Path
from typing import NamedTuple

from mutants.program.calling import naming
from mutants.texts.decoding import decoded


class Expected(NamedTuple):
    """Where it is from, and what is expected by test, from 1."""

    path: Path
    texts: dict[int, str]


def lines_for(text: str, tests: int) -> list[str]:
    """The lines of a text, one for each test. A blank line expects nothing; blank lines after the last test do not
    count."""
    lines = text.removesuffix("\n").split("\n")
    while len(lines) > tests and not lines[-1].strip():
        lines.pop()
    return lines


def expected_in_file(path: Path, tests: int) -> Expected:
    """What a file expects: a list of texts in JSON, or a line for each test."""
    with naming(path):
        text = decoded(path.read_bytes())
        texts = json.loads(text) if path.suffix.lower() == ".json" else lines_for(text, tests)
        if not isinstance(texts, list) or not all(isinstance(each, str) for each in texts):
            raise ValueError('it is no list of texts, as ["RETURNED 1 2 1"]')
        if len(texts) != tests:
            raise ValueError(f"it has {len(texts)} outcomes for {tests} tests")
    return Expected(path, dict(enumerate(texts, 1)))
