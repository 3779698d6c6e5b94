"""The comparison with gfortran: the units and drivers that are written, and how runs compare."""

import unittest
from functools import partial

import running  # noqa: F401  it finds the package
from developing.gfortran.comparing import Mutant, Outcome, judged, refusals, source_of, with_calls
from developing.gfortran.driver import driver_of, written_by
from mutants.texts.cards import cards_of, lines_of
from mutants.texts.dummies import read_unit
from running import LEAST

ARRAYS = "      SUBROUTINE S(I,M,P)\n      INTEGER M(2,3)\n      LOGICAL P\n      P=M(1,1).EQ.I\n      END\n"


class Units(unittest.TestCase):
    def test_reads_the_head_and_the_dummies(self) -> None:
        self.assertEqual(read_unit(LEAST), ("LEAST", [("integer", None)] * 3))
        self.assertEqual(read_unit(ARRAYS), ("S", [("integer", None), ("integer", 6), ("logical", None)]))
        with self.assertRaisesRegex(ValueError, "does not begin with SUBROUTINE"):
            read_unit("      END\n")

    def test_writes_statements_in_their_columns(self) -> None:
        lines = lines_of("10", "K=" + "I+" * 40 + "I")
        self.assertEqual(lines[0][:8], "   10 K=")
        self.assertTrue(lines[1].startswith("     +"))
        self.assertTrue(all(len(line) <= 72 for line in lines))

    def test_the_driver_sets_and_prints_each_argument(self) -> None:
        driver = driver_of(["s"], read_unit(ARRAYS)[1], [[1, [1, 2, 3, 4, 5, 6], True]])
        for line in (
            "arg_1 = 1",
            "arg_2(6) = 6",
            "arg_3 = .True.",
            "call s(arg_1, arg_2, arg_3)",
            "logical, target :: arg_3",
        ):
            self.assertIn(line, driver.split("\n"))

    def test_a_command_that_fails_is_one_line(self) -> None:
        self.assertEqual(written_by(["sh", "-c", "echo one; exit 3"]), "status 3: one")
        self.assertTrue(written_by(["sleep", "9"], seconds=0).startswith("status unknown"))


class Mutants(unittest.TestCase):

    def test_calls_stand_in_the_places_of_what_fortran_has_not(self) -> None:
        self.assertEqual(with_calls("IF (J.LT.I) TRAP"), "IF(J.LT.I)CALLTRAP_HERE")
        self.assertEqual(with_calls("K=ZPUSH(I)"), "K=NO_ZERO(I)")
        self.assertEqual(with_calls("STOP"), "CALLSTOP_HERE")

    def test_a_mutant_has_one_statement_changed_and_another_name(self) -> None:
        cards = cards_of(LEAST)
        lines = source_of(cards, "unit_1", Mutant("SDL 1", 3, "CONTINUE", "10"))
        self.assertEqual(
            [line.strip() for line in lines], ["SUBROUTINE unit_1(I,J,K)", "CONTINUE", "IF(J.LT.I)K=J", "END"]
        )
        self.assertIn("      K=I", source_of(cards, "unit_0", None))

    def test_finds_the_unit_that_gfortran_refuses(self) -> None:
        said = "units.f:5:10:\n\n   more\nError: Bad thing at (1)\nunits.f:6:1:\nError: Worse\n"
        self.assertEqual(refusals(said, [["1", "2", "3"], ["4", "5", "6"]]), {1: "Bad thing"})
        self.assertEqual(refusals("collect2: error\n", [["1"]]), {})

    def test_how_a_run_compares(self) -> None:
        one, other, outside = Outcome("1", None), Outcome("2", None), Outcome(None, "a trap")
        asked = [
            (one, one, "0", "", "agree"), (one, other, "1", "", "agree"),
            (one, outside, "1", "", "outside the standard: a trap"), (one, outside, "0", "", "differ"),
            (one, one, "1", "OVERFLOW", "outside the standard by mothra's word alone: OVERFLOW"),
            (one, one, "1", "STEPLIMIT", "beyond the limit on steps, by mothra's word alone"),
            (one, other, "0", "RETURNED 1", "differ"),
        ]  # fmt: skip
        for original, outcome, bit, word, wanted in asked:
            self.assertEqual(judged(original, outcome, bit, partial(str, word)), wanted)


if __name__ == "__main__":
    unittest.main()
