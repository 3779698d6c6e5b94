"""Wrong bodies: how an edit is read, applied and judged, and the whole tool with a small program in the place of rt."""

import io
import os
import tempfile
import unittest
from argparse import Namespace
from contextlib import redirect_stdout
from pathlib import Path
from typing import ContextManager
from unittest import mock

import running  # noqa: F401
from developing import edits
from mutants.program.roots import ROOT
from mutants.statuses import FAULT, SUCCESS

SOURCE = """\
pub fn sum(x: u32) -> u32
    ensures { IsSum x result }
{
    x + 1
}

pub fn twice(x: u32) -> u32 {
    x + x
}
"""
# It proves what has no `wrong` in a body, and cannot read what has `unreadable`.
RT = """\
#!/usr/bin/env -S python3 -S
import re, sys
assert sys.argv[1:] == ["check", "--jobs", "1"], sys.argv
with open("src/sum.rt", encoding="utf-8") as file:
    text = file.read()
if "unreadable" in text:
    sys.exit("src/sum.rt:4:5: error: expected the end\\nlogic=not-read")
bad = [name for name, body in re.findall(r"fn (\\w+)(.*?)^}", text, re.M | re.S) if "wrong" in body]
for name in bad:
    print(f"note: src/sum.rt:4:5: it is not proved that {name} holds; more")
    print(f"fn one::sum::{name}: not proved")
print("logic=not-proved" if bad else "logic=proved")
sys.exit(bool(bad))
"""


def edit_text(old: str, new: str, file: str = "src/sum.rt") -> str:
    return f"file: {file}\nold: {old}\nnew: {new}\n"


class Repository(unittest.TestCase):
    """A repository of one crate, whose earlier checks have left their work."""

    def setUp(self) -> None:
        room = tempfile.TemporaryDirectory()
        self.addCleanup(room.cleanup)
        self.root = Path(room.name)
        self.crate = self.root / "crates" / "one"
        for folder in ("src", "more-edits", "must-fail", "out"):
            (self.crate / folder).mkdir(parents=True)
        (self.crate / "src" / "sum.rt").write_text(SOURCE)
        (self.root / "crates.txt").write_text("one: thiserror # below\n")
        rt = self.root / "bin" / "rt"
        rt.parent.mkdir()
        rt.write_text(RT)
        rt.chmod(0o755)
        path = {"PATH": f"{rt.parent}:{os.environ['PATH']}"}
        self.enter(mock.patch.object(edits, "ROOT", self.root))
        self.enter(mock.patch.dict(os.environ, path))

    def enter(self, patch: ContextManager[object]) -> None:
        patch.__enter__()
        self.addCleanup(patch.__exit__, None, None, None)

    def put(self, name: str, text: str, folder: str = "more-edits") -> Path:
        path = self.crate / folder / f"{name}.edit"
        path.write_text(text)
        return path

    def run_tool(self, *names: str, gate: bool = False) -> tuple[int, list[str]]:
        out = io.StringIO()
        with redirect_stdout(out):
            status = edits.run(Namespace(names=list(names), gate=gate, all=False, jobs=2), "tools/edits")
        return status, out.getvalue().splitlines()


class Reading(Repository):
    def read(self, text: str) -> dict[str, str]:
        return edits.read_edit(self.put("it", text), self.crate)

    def test_a_pair_applies_to_what_the_earlier_ones_made(self) -> None:
        text = edit_text("    x + 1", "    x + 2") + "old:     x + 2\nnew:     x + 3\n"
        self.assertEqual(self.read(text), {"src/sum.rt": SOURCE.replace("x + 1", "x + 3")})

    def test_refuses_what_is_no_edit(self) -> None:
        for text, told in (
            ("", "no pair of texts"), (edit_text("gone", "x"), "0 times"), (edit_text("u32", "x"), "4 times"),
            (edit_text("x + 1", "x", "../sum.rt"), "none below src"), ("file: src/sum.rt\nnew: x\n", "no old text"),
        ):  # fmt: skip
            with self.subTest(told), self.assertRaisesRegex(ValueError, told):
                self.read(text)

    def test_knows_the_function_whose_body_is_changed(self) -> None:
        def place(text: str) -> edits.Place | None:
            return edits.place_of(self.put("it", text), self.crate)

        self.assertEqual((place(edit_text("x + 1", "x")) or ("",) * 3)[:2], ("sum::", "sum"))
        self.assertEqual((place(edit_text("x + x", "x")) or ("",) * 3)[:2], ("sum::", "twice"))
        self.assertIsNone(place(edit_text("ensures { IsSum x result }", "ensures { ⊤ }")))
        self.assertIsNone(place(edit_text("x + 1", "x") + "old: x + x\nnew: x\n"))

    def test_edits_of_one_function_are_not_tried_together(self) -> None:
        one = self.put("a", edit_text("x + 1", "x"))
        other = self.put("b", edit_text("x + x", "x"))
        same = self.put("c", edit_text("    x + 1", "    1"))
        groups = edits.in_groups([one, other, same], self.crate)
        self.assertEqual([list(group.values()) for group in groups], [[one, other], [same]])


class Stored(unittest.TestCase):
    def test_each_edit_of_the_repository_applies(self) -> None:
        for folder in ("must-fail", "more-edits"):
            for path in sorted(ROOT.glob(f"crates/*/{folder}/*.edit")):
                with self.subTest(f"{path.parent.parent.name}/{path.stem}"):
                    self.assertTrue(edits.read_edit(path, path.parent.parent))


class Judging(unittest.TestCase):
    def test_tells_what_a_check_says(self) -> None:
        goal = "note: src/a.rt:1:1: it is not proved that this holds; the rest"
        gone = "proofs/a.antt:1:1: error: `x`:"
        for status, lines, wanted in (
            (0, ["logic=proved"], (False, "NOT REFUSED")),
            (1, [goal, "logic=not-proved"], (True, "refused: src/a.rt:1:1: it is not proved that this holds")),
            (
                1,
                ["src/a.rt:1:1: error: expected the end", "logic=not-proved"],
                (False, "BAD EDIT: the edited text can"),
            ),
            (2, ["error: no room", "logic=none"], (False, "BAD EDIT: no goal was tried: error: no room")),
            (1, ["Run the lower steps again", "logic=not-proved"], (False, "BAD EDIT: what earlier checks")),
            (1, [f"{gone} is not in scope", "logic=not-proved"], (True, "refused: only because a proof")),
        ):
            with self.subTest(lines[0]):
                is_refused, told = edits.judge(status, lines, ["src/a.rt"])
                self.assertEqual((is_refused, told[: len(wanted[1])]), wanted)


class Trying(Repository):
    def test_all_are_refused(self) -> None:
        self.put("a", edit_text("x + 1", "wrong"))
        self.put("b", edit_text("x + x", "wrong"))
        status, lines = self.run_tool()
        self.assertEqual(status, SUCCESS, lines)
        self.assertEqual(lines[-1], "2 refused, 0 not")
        self.assertEqual(lines[0], "one/a: refused: fn one::sum::sum: not proved")
        self.assertEqual((self.crate / "src" / "sum.rt").read_text(), SOURCE)

    def test_what_is_not_refused_is_told_and_is_the_status(self) -> None:
        self.put("a", edit_text("x + 1", "right"))
        self.put("b", edit_text("x + x", "unreadable"))
        self.put("c", edit_text("x + 1", "wrong"), "must-fail")
        status, lines = self.run_tool(gate=True)
        self.assertEqual((status, lines[-1]), (FAULT, "1 refused, 2 not"))
        self.assertIn("one/a: NOT REFUSED", lines)
        self.assertTrue(any(line.startswith("one/b: BAD EDIT: ") for line in lines), lines)

    def test_single_edits_are_named_and_unknown_names_refused(self) -> None:
        self.put("a", edit_text("x + 1", "wrong"))
        self.put("c", edit_text("x + x", "wrong"), "must-fail")
        self.assertEqual(self.run_tool("one/c")[1][-1], "1 refused, 0 not")
        with self.assertRaisesRegex(ValueError, "no crate and no edit one/gone"):
            self.run_tool("one/gone")

    def test_nothing_counts_where_the_crate_itself_is_not_proved(self) -> None:
        (self.crate / "src" / "sum.rt").write_text(SOURCE.replace("x + x", "wrong"))
        self.put("a", edit_text("x + 1", "wrong"))
        self.assertEqual(self.run_tool()[0], FAULT)


if __name__ == "__main__":
    unittest.main()
