"""Where definitions stand: what is read of a text, what is reached, and what is told of a file in the wrong place."""

import io
import tempfile
import unittest
from argparse import Namespace
from contextlib import redirect_stdout
from pathlib import Path
from unittest import mock

import running
from developing import definitions
from developing.antt.placing import misplaced
from developing.antt.reaching import reach
from developing.antt.units import units_in
from developing.antt.uses import uses_in
from developing.antt.widths import unquoted, wide_of
from developing.definitions import named_twice, table_of

CRATES = "sums: thiserror\nmothra_app: sums\nmothra may_wait=1: mothra_app\nsums_tests: sums\n"
LIB = """\
//! Sums.
mod hidden;
pub mod law;
mod pair;
mod sum;

pub use pair::Pair;
pub use sum::{sum_of, Adds as Sums};
"""
SUM = """\
ghost use Rattle.sums.specs.Sum.{
    IsSum, is_small,
};
ghost use Rattle.sums.specs.Sum as sums;

/// The sum.
pub fn sum_of(a: u32, b: u32) -> u32
    requires { a ≤ 9 }
    ensures { IsSum a b result }
{
    add(a, b)
}

#[tactic(auto, using(crate::specs::Sum::small_sum))]
fn add(a: u32, b: u32) -> u32
    ghost at: { sums.Place }
    requires { is_small a }
    ensures { IsSum a b result }
{
    a + b
}

pub trait Adds {
    ghost adds: { sums.Adding };
}
"""
PAIR = """\
ghost use Rattle.sums.specs.Sum.{Place};

pub struct Pair {
    left: u32,
    ghost ordered: { IsOrdered left },
}

impl Model for Pair {
    ghost use Rattle.sums.specs.Pair.{PairFields, IsPair, pair_code};

    ghost Value = { PairFields };

    ghost coded = { pair_code };

    ghost invariant = { λ p. IsPair p };
}

struct Hidden;

impl Hidden {
    pub fn place(&self) -> u32
        ensures { Place result }
    {
        0
    }
}
"""
HIDDEN = "ghost use Rattle.sums.specs.Hidden.{IsHidden};\n\npub fn hide(x: u32)\n    requires { IsHidden x }\n{}\n"
LAW = "ghost use Rattle.sums.specs.Sum.{Law};\n\npub fn one_sum()\n    ensures { Law }\n{}\n"
SPEC = """\
-- What a sum is.
use Rattle.std.specs.Prelude.{◌≡◌, ℕ, zero, suc}
use Rattle.sums.specs.Digits as digits

-- the sum

-- of two
pub record IsSum (n m r : ℕ) : Type 0 where
  pub is : HasSum n m r

abbrev pub HasSum : ℕ → ℕ → ℕ → Type 0
HasSum zero m r = digits.value m ≡ r
-- the other case
HasSum (suc n) m r = HasSum n (suc m) r

abbrev pub is_small : ℕ → Type 0
is_small n = n ≤ 9

abbrev pub Place : ℕ → Type 0
Place n = n ≡ n

pub small_sum : (n : ℕ) → is_small n
small_sum n = tt

abbrev pub Adding : Type 0
Adding = ℕ

abbrev pub Law : Type 0
Law = ℕ

abbrev pub unused : ℕ
unused = zero
"""
PAIR_SPEC = """\
use Rattle.std.specs.Prelude.{ℕ}

abbrev pub IsPair : PairFields → Type 0
IsPair p = ℕ

pub record PairFields : Type 0 where
  pub left : ℕ

pub pair_code : ℕ
pair_code = 0
"""
DIGITS = """\
use Rattle.std.specs.Prelude.{ℕ}

abbrev pub value : ℕ → ℕ
value n = n + 1000000000000000000000 + 1000000000000000000000 + 1000000000000000000000 + 100000000000
"""
HIDDEN_SPEC = "use Rattle.std.specs.Prelude.{ℕ}\n\nabbrev pub IsHidden : ℕ → Type 0\nIsHidden n = ℕ\n"
LEMMA = "use Rattle.std.specs.Prelude.{ℕ}\n\nabbrev pub Place : ℕ → Type 0\nPlace n = ℕ\n"
PROOF = "use Rattle.sums.specs.Lemma.{Place}\n\npub placed : Place 0\nplaced = 0\n"
SERVING = "ghost use Rattle.sums.specs.Sum as sum;\n\npub fn serve(x: u32)\n    requires { sum.HasSum x x x }\n{}\n"
TESTED = "ghost use Rattle.sums.specs.Hidden as hidden;\n\npub fn try_it()\n    requires { hidden.IsHidden 0 }\n{}\n"
FILES = {
    "sums/src/lib.rt": LIB, "sums/src/sum.rt": SUM, "sums/src/pair.rt": PAIR, "sums/src/hidden.rt": HIDDEN,
    "sums/src/law.rt": LAW, "sums/specs/Sum.antt": SPEC, "sums/specs/Pair.antt": PAIR_SPEC,
    "sums/specs/Digits.antt": DIGITS, "sums/specs/Hidden.antt": HIDDEN_SPEC, "sums/specs/Lemma.antt": LEMMA,
    "sums/specs/Lib.antt": "pub mod Sum\n", "sums/proofs/Placed.antt": PROOF,
    "mothra_app/src/lib.rt": SERVING, "mothra/src/main.rt": "use mothra_app::{Status, serve};\n",
    "sums_tests/src/lib.rt": TESTED,
}  # fmt: skip


class Texts(unittest.TestCase):
    def test_reads_imports(self) -> None:
        text = "use A.B as c\npub use A.{x, y as z}\n"
        text += "    ghost use M.{\n    i,\n    j\n};\nuse D.E\nuser = 1\n"
        uses = list(uses_in(text))
        self.assertEqual([use.paths for use in uses], [
            {"c": "A.B"}, {"x": "A.x", "z": "A.y"}, {"i": "M.i", "j": "M.j"}, {"E": "D.E"},
        ])  # fmt: skip
        self.assertEqual([(use.is_of_items, use.is_ghost, use.indent) for use in uses], [
            (False, False, ""), (True, False, ""), (True, True, "    "), (False, False, ""),
        ])  # fmt: skip
        self.assertTrue(text[: uses[2].end].endswith("    j\n}"))

    def test_reads_definitions_with_their_comments(self) -> None:
        units = units_in(SPEC)
        names = ["IsSum", "HasSum", "is_small", "Place", "small_sum", "Adding", "Law", "unused"]
        self.assertEqual([unit.names for unit in units], [[name] for name in names])
        self.assertEqual(units[0].lines[0], "-- the sum")
        self.assertEqual([unit.lines_of_text() for unit in units[:2]], [4, 4])
        self.assertEqual(units[1].start, 10)

    def test_reads_families_and_blocks(self) -> None:
        text = "abbrev mutual\n  pub even : ℕ → Bool\n  even zero = x\n\n  pub odd : ℕ → Bool\n  odd n = even n\n\n"
        text += "infixl 50 ◌+◌\n\n◌+◌ : ℕ → ℕ\na + b = a\n\n"
        text += "pub data List (A : Type 0) : Type 0 where\n  nil none : List A\n  cons : A → List A\n"
        text += "  deriving IsSet as List-set\n"
        found = [(unit.names, unit.cases) for unit in units_in(text)]
        self.assertEqual(found[0], (["even", "odd"], []))
        self.assertEqual(found[1], (["◌+◌"], []))
        self.assertEqual(found[2], (["List", "List-set"], ["nil", "none", "cons"]))

    def test_texts_in_quotation_marks_have_no_width(self) -> None:
        rows = {
            'f("one", 2)': ['f("", 2)'],
            'f("one\n  two\n", 3)\n': ['f(""', "", ", 3)", ""],
            'let x = r#"{"a":"b"}"#; // the "': ['let x = ""; // the "'],
            "let x = ('\"', b'\"', \"c\\\"\")": ["let x = ('\"', b'\"', \"\")"],
            "f<'a, T>(x: &'a str)": ["f<'a, T>(x: &'a str)"],
        }
        for text, want in rows.items():
            self.assertEqual(unquoted(text), want, text)


class Crates(unittest.TestCase):
    def setUp(self) -> None:
        self.folder = tempfile.TemporaryDirectory()
        self.addCleanup(self.folder.cleanup)
        self.root = Path(self.folder.name)
        (self.root / "crates.txt").write_text(CRATES, encoding="utf-8")
        for file, text in FILES.items():
            self.put(file, text)

    def put(self, file: str, text: str) -> None:
        path = self.root / "crates" / file
        path.parent.mkdir(parents=True, exist_ok=True)
        path.write_text(text, encoding="utf-8")

    def classes(self) -> dict[str, str]:
        reached = reach(self.root)
        found = [(each.node.module.split(".")[-1], each) for each in reached.definitions()]
        return {f"{module}.{each.node.name}": reached.class_of(each) for module, each in found}

    def faults(self) -> dict[str, list[str]]:
        found: dict[str, list[str]] = {}
        for line in misplaced(reach(self.root)):
            file, _, fault = line.partition(": ")
            found.setdefault(file.removeprefix("crates/sums/"), []).append(fault)
        return found

    def test_tells_from_where_definitions_are_reached(self) -> None:
        self.assertEqual(self.classes(), {
            "Digits.value": "program", "Sum.HasSum": "program", "Sum.IsSum": "public", "Sum.Adding": "public",
            "Sum.Law": "public", "Sum.is_small": "code", "Sum.Place": "code", "Sum.small_sum": "proofs",
            "Sum.unused": "nothing", "Pair.IsPair": "public", "Pair.PairFields": "public", "Pair.pair_code": "laws",
            "Hidden.IsHidden": "code", "Lemma.Place": "proofs",
        })  # fmt: skip

    def test_a_module_or_a_name_that_is_passed_on_makes_a_call_public(self) -> None:
        self.put("sums/src/lib.rt", LIB.replace("mod hidden;", "pub mod hidden;"))
        self.assertEqual(self.classes()["Hidden.IsHidden"], "public")
        self.put("sums/src/lib.rt", LIB.replace("mod pair;", "mod pair;\npub use crate::hidden::{hide, Other};"))
        self.assertEqual(self.classes()["Hidden.IsHidden"], "public")
        self.put("sums/src/lib.rt", LIB.replace("pub use pair::Pair;\n", ""))
        self.assertEqual(self.classes()["Pair.IsPair"], "code")

    def test_a_type_that_is_cited_brings_what_it_says_of_its_values(self) -> None:
        fields = "use Rattle.sums.specs.declared.pair.Pair.{Pair}\n\nabbrev pub value : Pair → ℕ\nvalue p = 0\n"
        self.put("sums/specs/Digits.antt", fields)
        self.assertEqual(self.classes()["Pair.IsPair"], "program")

    def test_tells_files_in_the_wrong_place(self) -> None:
        self.assertEqual(self.faults(), {
            "specs/Hidden.antt": ["no public contract cites it: it belongs in crates/sums/specs/code/"],
            "specs/Lemma.antt": ["only proofs cite it: it belongs in crates/sums/proofs/"],
            "specs/Sum.antt": [
                "nothing cites unused",
                "no public contract cites is_small, Place, small_sum: they belong in crates/sums/specs/code/",
            ],
        })  # fmt: skip

    def test_what_only_proofs_reach_stands_in_the_folder_of_code_where_it_is_cited_there(self) -> None:
        more = "use Rattle.sums.specs.Lemma.{Place}\n\nabbrev pub More : Type 0\nMore = Place 0\n"
        self.put("sums/specs/code/More.antt", more)
        in_code = "no public contract cites it: it belongs in crates/sums/specs/code/"
        self.assertEqual(self.faults()["specs/Lemma.antt"], [in_code])
        self.move("Lemma.antt")
        self.assertNotIn("specs/code/Lemma.antt", self.faults())

    def move(self, name: str) -> None:
        (self.root / "crates/sums/specs/code").mkdir(exist_ok=True)
        path = self.root / "crates/sums/specs" / name
        path.rename(path.parent / "code" / name)
        for file in [*self.root.rglob("*.rt"), *self.root.rglob("*.antt")]:
            stem = Path(name).stem
            text = file.read_text(encoding="utf-8").replace(f"sums.specs.{stem}", f"sums.specs.code.{stem}")
            file.write_text(text, encoding="utf-8")

    def test_tells_files_that_are_wrong_in_the_folder_of_code(self) -> None:
        self.move("Hidden.antt")
        self.assertNotIn("specs/code/Hidden.antt", self.faults())
        self.move("Digits.antt")
        self.move("Lemma.antt")
        self.move("Sum.antt")
        faults = self.faults()
        in_specs = "public contracts cite it: it belongs in crates/sums/specs/"
        self.assertEqual(faults["specs/code/Digits.antt"], [in_specs])
        self.assertEqual(faults["specs/code/Lemma.antt"], ["only proofs cite it: it belongs in crates/sums/proofs/"])
        self.assertEqual(faults["specs/code/Sum.antt"][1], "public contracts cite HasSum, IsSum, Adding, Law")

    def test_tells_lines_by_classes_and_names_of_two_modules(self) -> None:
        reached = reach(self.root)
        table = [line.split() for line in table_of(reached)]
        self.assertEqual(table[-1], ["all", "6", "12", "2", "6", "4", "2", "32"])
        self.assertEqual(list(named_twice(reached)), ["two modules define Place: sums.specs.Lemma, sums.specs.Sum"])

    def test_tells_wide_lines_of_each_folder(self) -> None:
        self.put("sums/src/hidden.rt", f"{HIDDEN}// {'x' * 118}\n#[tactic({'x' * 118})]\nlet x = \"{'x' * 200}\";\n")
        self.put("sums/specs/Hidden.antt", HIDDEN_SPEC.replace("n = ℕ", f"n = {'ℕ' * 108}"))
        self.put("sums/proofs/Placed.antt", PROOF.replace("= 0", f"= {'0' * 192}"))
        told = [line.removeprefix("crates/sums/") for line in wide_of(reach(self.root))]
        self.assertEqual(told, [
            "proofs/Placed.antt:4: 201 columns, and 200 at most are wanted",
            "specs/Digits.antt:4: 101 columns, and 100 at most are wanted",
            "specs/Hidden.antt:4: 121 columns, and 120 at most are wanted",
            "src/hidden.rt:6: 121 columns, and 120 at most are wanted",
        ])  # fmt: skip

    def checked(self) -> tuple[int, list[str]]:
        with mock.patch.object(definitions, "ROOT", self.root), redirect_stdout(io.StringIO()) as out:
            return definitions.run(Namespace(check=True), "tools/definitions"), out.getvalue().splitlines()

    def test_a_check_fails_where_something_is_wrong(self) -> None:
        status, told = self.checked()
        self.assertEqual((status, len(told)), (1, 6))
        self.assertEqual(told[4], "two modules define Place: sums.specs.Lemma, sums.specs.Sum")
        self.assertIn("Digits.antt:4: 101 columns", told[5])
        for file in ("Hidden", "Lemma"):
            (self.root / f"crates/sums/specs/{file}.antt").unlink()
        front, _, back = SPEC.partition("abbrev pub is_small")
        back = back[back.index("abbrev pub Adding") :].partition("abbrev pub unused")[0]
        self.put("sums/specs/Sum.antt", front + back)
        self.put("sums/specs/Digits.antt", DIGITS.replace(" + 1000000000000000000000", "", 1))
        right = "each file of specs/ stands where it belongs, each name stands for one definition"
        self.assertEqual(self.checked(), (0, [right]))


class Tool(unittest.TestCase):
    def test_reads_the_repository(self) -> None:
        status, out, errors = running.run("definitions")
        self.assertEqual((status, errors), (0, ""), out)
        self.assertRegex(out, r"\nall  ( +\d+){7}\n")


if __name__ == "__main__":
    unittest.main()
