"""The rows of the page of promises: each call, clause and definition that a row cites is in the crate that it names."""

import re
import unittest
from collections.abc import Iterator
from typing import NamedTuple

import running

CRATES = running.ROOT / "crates"
PAGE = (running.ROOT / "docs" / "PROMISES.md").read_text()
IN_TICKS = re.compile(r"`([^`]+)`")


class Row(NamedTuple):
    crates: list[str]
    calls: list[tuple[str, list[str]]]
    definitions: list[tuple[str, list[str]]]


def named_lists(cell: str) -> list[tuple[str, list[str]]]:
    """The names of a cell, each with those that stand behind its colon."""
    parts = [IN_TICKS.findall(part) for part in cell.split(";")]
    return [(names[0], names[1:]) for names in parts if names]


def rows() -> Iterator[Row]:
    for line in PAGE.splitlines():
        cells = [cell.strip() for cell in line.strip("|").split(" | ")]
        if line.startswith("|") and len(cells) == 4 and IN_TICKS.search(cells[1]):
            yield Row(IN_TICKS.findall(cells[1]), named_lists(cells[2]), named_lists(cells[3]))


def contract(crate: str, call: str) -> str:
    """The heads of the public calls of this name: each up to its body."""
    owner, _, name = call.rpartition("::")
    heads = []
    for path in sorted((CRATES / crate / "src").rglob("*.rt")):
        text = path.read_text()
        if owner[:1].isupper() and not re.search(rf"\b(impl|trait)\b[^{{]*\b{owner}\b", text):
            continue
        if owner[:1].islower() and path.stem != owner:
            continue
        heads += re.findall(rf"\bfn {name}\b.*?(?=\n *\{{|;\n)", text, re.DOTALL)
    return "\n".join(heads)


class Promises(unittest.TestCase):
    def test_the_page_has_its_rows(self) -> None:
        self.assertGreater(len(list(rows())), 80)

    def test_each_call_has_the_clauses_that_a_row_cites(self) -> None:
        for row in rows():
            for call, clauses in row.calls:
                heads = "\n".join(contract(crate, call) for crate in row.crates)
                with self.subTest(crate=row.crates, call=call):
                    self.assertIn("ensures", heads)
                    missing = [
                        name
                        for name in clauses
                        if name != "its condition" and not re.search(rf"\b(ensures|requires) {name} {{", heads)
                    ]
                    self.assertEqual(missing, [])

    def test_each_definition_stands_in_the_file_that_a_row_names(self) -> None:
        for row in rows():
            for name, definitions in row.definitions:
                crate, _, file = name.rpartition("/")
                paths = [CRATES / owner / "specs" / file for owner in ([crate] if crate else row.crates)]
                texts = [path.read_text() for path in paths if path.exists()]
                with self.subTest(file=name):
                    self.assertTrue(texts)
                    missing = [
                        word
                        for word in definitions
                        if not re.search(rf"^ *(\w+ )?pub (data |record )?{word}\b", "\n".join(texts), re.MULTILINE)
                    ]
                    self.assertEqual(missing, [])
