"""The tables of pages that are made: what a row says, and what is told where a page has another one."""

import unittest
from unittest import mock

import running
from developing import tables
from developing.rules import rules_of
from developing.tables import cases_of, crates_of, first_sentence, packages_of, tools_of, with_table, wrong_bodies_of
from running import Folder, refuses

PAGE = "# A\n\n<!-- made by tools/tables: crates -->\n{}<!-- end of crates -->\n\nB\n"
MADE = """
| Crate | What it is | Stands on |
|---|---|---|
| `low` | Sums: `a\\|b` | |
| `mid` | More of them | `clap`, `low` |
| `top` | The program | `mid` |

"""


class Made(Folder):
    def setUp(self) -> None:
        super().setUp()
        self.put("crates.txt", "low: thiserror # below\nmid may_wait=1: low clap\ntop: low mid\n")
        self.put("crates/low/src/lib.rt", "//! Sums:\n//! `a|b`. They are small.\n//!\n//! And so on.\nfn f() {}\n")
        self.put("crates/mid/src/lib.rt", "//! More of them.\n")
        self.put("crates/top/src/main.rt", "//! The program.\n")
        self.put("page.md", PAGE.format("old\n"))

    def tool(self, *words: str) -> running.Ended:
        places = {"crates": ("page.md", crates_of)}
        with mock.patch.multiple(tables, ROOT=self.folder, TABLES=places):
            return running.run("tables", *words)

    def test_a_crate_stands_on_what_does_not_follow_from_another(self) -> None:
        self.assertEqual(with_table(PAGE.format("old\n"), "crates", crates_of(self.folder)), PAGE.format(MADE))

    def test_a_table_that_is_another_one_is_told_and_made_anew(self) -> None:
        told = "page.md: the table crates is another one now: call tools/tables\n"
        self.assertEqual(self.tool("--check")[:2], (1, told))
        self.assertEqual(self.tool()[0], 0)
        self.assertEqual((self.folder / "page.md").read_text(), PAGE.format(MADE))
        self.assertEqual(self.tool("--check")[0], 0)
        self.put("page.md", "# A\n")
        refuses(self, self.tool(), "the page has no place for the table crates")

    def test_tools_and_wrong_bodies(self) -> None:
        self.put(".ci/run", "tools/one --check || exit 1\n")
        for name in ("one", "the-other"):
            self.put(f"tools/{name}", "")
        self.put("tools/developing/one.py", '"""Do it.\n\nMore.\n"""\n')
        self.put("tools/developing/the_other.py", '"""Undo it\nagain."""\n')
        rows = [("`tools/one`", "Do it", "yes"), ("`tools/the-other`", "Undo it again", "")]
        self.assertEqual(list(tools_of(self.folder))[1:], rows)
        for name in ("one_for_two", "a_sum_left_out"):
            self.put(f"crates/low/must-fail/{name}.edit", "")
        self.assertEqual(list(wrong_bodies_of(self.folder))[1:], [("`low`", "a sum left out; one for two")])

    def test_a_function_with_a_case_for_each_expression(self) -> None:
        self.put("crates/low/src/tree.rt", "pub enum Expr {\n    Not(u8),\n    /// Two.\n    Both { x: u8 },\n}\n")
        one = "impl A {\n    pub fn one(&self) {\n        Expr::Not | Expr::Both\n    }\n\n"
        self.put("crates/mid/src/a.rt", one + "    fn other() {\n        Expr::Not | Expr::Bother\n    }\n}\n")
        self.put("crates/top/src/b.rt", "fn two() {\n    Expr::Not | Expr::Both\n}\n")
        self.assertEqual(list(cases_of(self.folder))[1:], [("`Expr`", "`mid` `a::one`; `top` `b::two`")])

    def test_a_rule_with_its_definitions_contracts_and_rows(self) -> None:
        rule = "-- Rule: C2, C4 to C6 (4.1, 11.1 to 11.10)\n-- no name is REAL\n"
        self.put("crates/low/specs/A.antt", rule + "unfoldable pub is_real : Bool\nis_real = true\n")
        inner = "module _ (n : Bool) where\n  -- Rule: the start\n  pub record IsStart : Type 0 where\n"
        self.put("crates/low/specs/B.antt", rule + "pub data Twice : Type 0 where\n\n" + inner)
        own = "fn own() -> bool\n    ensures { result ≡ is_real }\n{\n    true\n}\n"
        self.put("crates/low/src/a.rt", own + own.replace("own", "two").replace("fn", "pub fn"))
        self.put("crates/low/src/b.rt", own.replace("own", "three").replace("is_real", "IsStart"))
        self.put("crates/rows/stdout", "> x\n1: FAULT C2 X\n1: FAULT C5 3\n1: FAULT C7 3\n")
        rows = [
            ("C2, C4 to C6", "4.1, 11.1 to 11.10", "`low`", "`is_real`, `Twice`", "`two`", "2"),
            ("the start", "", "`low`", "`IsStart`", "`three`", ""),
        ]
        self.assertEqual(list(rules_of(self.folder))[1:], rows)
        self.put("crates/low/specs/C.antt", "-- Rule: O3\nuse A\n")
        with self.assertRaisesRegex(ValueError, "the marker of the rule O3 stands above no definition"):
            list(rules_of(self.folder))

    def test_packages_by_their_docstrings(self) -> None:
        self.put("mutants/__init__.py", '"""All."""\n')
        self.put("mutants/some/__init__.py", '"""Some of it. And more."""\n')
        self.put("mutants/some/part.py", '"""A part."""\n')
        self.assertEqual(list(packages_of(self.folder))[1:], [("`some/`", "Some of it")])

    def test_a_first_sentence_ends_at_its_full_stop(self) -> None:
        for text, said in (("A `b.c` is. Not d.", "A `b.c` is"), ("A\n b\n\nc.", "A b"), ("A (1.5). B", "A (1.5)")):
            self.assertEqual(first_sentence(text), said)


class Repository(unittest.TestCase):
    def test_its_tables_are_as_the_code_is(self) -> None:
        self.assertEqual(running.run("tables", "--check")[:2], (0, "6 tables are as the code is\n"))


if __name__ == "__main__":
    unittest.main()
