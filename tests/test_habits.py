"""Habits of FORTRAN 77 and of later Fortran: each is seen in its examples, and said with what to write instead."""

import json
import unittest
from collections.abc import Sequence
from pathlib import Path
from unittest import mock

import running  # noqa: F401  it finds the package
from developing import examples
from mutants.checks.faults import program_fault
from mutants.explanations.explanation import explained
from mutants.explanations.habits import HABITS, PARAGRAPH
from mutants.explanations.names import called_names, declared_arrays, logical_names
from mutants.explanations.paragraphs import matched
from mutants.explanations.seeing import advice_of_all, habits_seen, said_of_all, statement_habits
from mutants.program.calling import Fault

# Statements, with the name of the habit that is seen in each.
COMMON = {
    "CALL SUB(K)": "CALL", "WRITE (*,*) K": "WRITE", "READ (*,*) K": "READ", "PRINT *, K": "PRINT",
    "FORMAT (I5)": "FORMAT", "PARAMETER (N=10)": "PARAMETER", "FUNCTION F(N)": "FUNCTION", "DO WHILE (P)": "DO WHILE",
    "END DO": "END DO", "DO I=1,N": "DO without a label", "INTEGER*4 L": "length", "INTEGER :: L": "colons",
    "IF (I > J) K=1": "relation by signs", "P=I == J": "relation by signs", "K=1 ! ONE": "comment behind !",
    "INTEGER TAB(*)": "bound of any size", "INTEGER TAB(N)": "adjustable bound", "INTEGER TAB(0:9)": "lower bound",
    "IMPLICIT NONE": "IMPLICIT NONE", "REAL X": "REAL", "DOUBLE PRECISION X": "DOUBLE PRECISION",
    "CHARACTER S": "CHARACTER", "COMMON /X/ L": "COMMON", "SAVE": "SAVE", "EXTERNAL F": "EXTERNAL",
    "INTRINSIC ABS": "INTRINSIC", "EQUIVALENCE (L,N)": "EQUIVALENCE", "ENTRY E": "ENTRY", "PAUSE": "PAUSE",
    "ASSIGN 10 TO L": "ASSIGN", "CYCLE": "CYCLE", "EXIT": "EXIT", "SELECT CASE (I)": "SELECT CASE",
    "END SUBROUTINE ADD": "END SUBROUTINE", "K=I+ &": "ampersand", "STOP 1": "STOP with a code",
    "RETURN 1": "alternate return", "IF (P) THEN K=1": "IF with THEN and more", "K=1.5": "number with a point",
}  # fmt: skip
# Of these, which are of the subset or other faults, nothing is said.
NONE = (
    "K=1", "CALLED=1", "READ(1)=5", "DO 10 I=1,N", "INTEGER X(5)", "IF (1.EQ.K) K=2", "IF (P) 10,20,30", "STOP",
    "RETURN", "SUBROUTINE A(I)",
    "K=I**2-(-J)", "IF (I.EQ.-1) GO TO (10,20),I", "DATA I,M/1,3*0/", "ELSE IF (P) THEN", "END IF", "EXITS=SAVE+REAL",
    "IF (MOD(I,2).EQ.1.AND..NOT.P) RETURN", "P=.NOT..TRUE.", "K=(I", "K=I J", "PAUSED=1", "CONTINUE", "LOGICAL P",
)  # fmt: skip


def names_seen(statement: str) -> list[str]:
    return [seen.habit for seen in statement_habits(statement.replace(" ", ""))]


class Texts(unittest.TestCase):
    def test_each_habit_says_what_it_is_and_what_to_write(self) -> None:
        self.assertGreater(len(HABITS), 30)
        for name, habit in HABITS.items():
            with self.subTest(name):
                self.assertRegex(habit.says, r"(subset|column 6|do not agree).*\.$")
                self.assertRegex(habit.advice, r"^[A-Z].*\.$|^\{offer\}$")

    def test_each_is_seen_in_its_examples(self) -> None:
        for name, habit in HABITS.items():
            for example in habit.examples:
                with self.subTest(example.lines):
                    seen = habits_seen(*example.fault.split(" ")[1:], example.source)
                    self.assertEqual([each.habit for each in seen], [name])
                    told = " ".join([*said_of_all(seen), advice_of_all(seen, "")])
                    self.assertNotRegex(told, r"[{}]")

    def test_a_paragraph_without_advice_is_refused(self) -> None:
        with self.assertRaisesRegex(ValueError, "paragraph that is none"):
            matched("CALL\nFor: S2 CALL X\nCALL is a call.", PARAGRAPH)

    def test_the_examples_are_held_against_the_program(self) -> None:
        with mock.patch.object(examples, "asked_fault", lambda mothra, source: ("C2", "FOO")):
            found = dict(examples.compare_habits("mothra"))
        self.assertGreater(len(found), 150)
        self.assertEqual([what for what, is_same in found.items() if is_same], ["call of a function: K=FOO(I)"])


class Statements(unittest.TestCase):
    def test_the_common_ones(self) -> None:
        self.assertGreater(len(set(COMMON.values())), 30)
        for statement, habit in COMMON.items():
            with self.subTest(statement):
                text = f"      SUBROUTINE A\n      {statement}\n      END\n"
                self.assertEqual([seen.habit for seen in habits_seen("S2", "2", text)], [habit])

    def test_of_what_the_subset_has_nothing_is_said(self) -> None:
        for statement in NONE:
            with self.subTest(statement):
                self.assertEqual(names_seen(statement), [])

    def test_a_statement_with_several(self) -> None:
        for statement, wanted in (
            ("IF (I > 0) CALL X('A')", ["CALL", "relation by signs"]),
            ("WRITE (*,*) 'K > 0', 1.5", ["WRITE"]),
            ("INTEGER*2, INTENT(IN) :: A(N), B(0:N)", ["length", "colons", "adjustable bound", "lower bound"]),
            ("K=I*-1+'A;B'", ["text", "sign behind an operator"]),
            ("LOGICAL FUNCTION F(X)", ["FUNCTION"]),
            ("INTEGER X(N+1,*)", ["adjustable bound", "bound of any size"]),
        ):
            with self.subTest(statement):
                self.assertEqual(names_seen(statement), wanted)

    def test_what_is_filled_in(self) -> None:
        (seen,) = statement_habits("INTEGERX(N+1)")
        self.assertIn("The bound N+1 of X is no number.", seen.says)
        self.assertIn("--size N=8", seen.advice)
        (seen,) = statement_habits("ENDFILE1")
        self.assertTrue(seen.says.startswith("ENDFILE is of files."))

    def test_names_as_statements_use_them(self) -> None:
        arrays = declared_arrays(["INTEGERA(3),B", "REAL*8C(4)", "DIMENSIOND(2)", "COMMON/X/E(5)", "F(1)=2"])
        self.assertEqual(arrays, {"A", "C", "D", "E"})
        self.assertEqual(
            called_names("IF(A(1).EQ.MIN(K,MOD(I,J)))G=ISIGN(1,MIN(2,3))", arrays), [("MIN", 11), ("ISIGN", 29)]
        )
        self.assertEqual(called_names("INTEGERTAB(2,3,4)", []), [])
        self.assertEqual(logical_names(["LOGICALP,Q(3)", "LOGICAL*1R", "INTEGERI"]), {"P", "Q", "R"})


class Told(unittest.TestCase):
    def told(self, line: str, statements: Sequence[str]) -> str:
        source = "\n".join(["      SUBROUTINE A(I,J,K)", *(f"      {each}" for each in statements), "      END", ""])
        return " ".join(explained(line, json.dumps({"source": source}).encode(), None, []).split())

    def test_the_advice_is_that_of_the_habit(self) -> None:
        told = self.told("FAULT C2 ABS", ["K=ABS(I)"])
        self.assertIn("What to do: Write IABS in the place of ABS.", told)
        self.assertNotIn("misspelled", told)
        self.assertIn("Write MAX0 in the place of MAX.", self.told("FAULT C5 2", ["K=MAX(I,J)"]))
        self.assertIn("A call of a function is FORTRAN 77", self.told("FAULT C2 FOO", ["K=FOO(I)"]))
        self.assertNotIn("missing parenthesis", self.told("FAULT S2 2", ["CALL SUB(K)"]))

    def test_a_check_tells_it_in_its_line(self) -> None:
        source = "      SUBROUTINE A(I,J,K)\n      CALL SUB(K)\n      K=ABS(I)\n      X=I\n      END\n"
        for line, begin in (
            ("FAULT S2 2", "a.f, line 2: CALL is a call of another subroutine."),
            ("FAULT C2 ABS", "a.f: ABS is FORTRAN 77, for any kind of number or for REAL."),
            ("FAULT C2 X", "a.f: This name is REAL"),
        ):
            told = str(program_fault(Path("a.f"), source, source, Fault("print", line)))
            self.assertTrue(told.startswith(begin), told)
            self.assertIn(f"({line})", told)

    def test_without_a_habit_it_is_that_of_the_fault(self) -> None:
        self.assertIn("A misspelled name looks like this too.", self.told("FAULT C2 X", ["X=I"]))
        self.assertIn("Look for a missing parenthesis", self.told("FAULT S2 2", ["K=I J K"]))

    def test_declarations_that_stand_too_late(self) -> None:
        told = self.told("FAULT S2 3", ["K=1", "INTEGER L"])
        self.assertIn("INTEGER stands behind the statement of line 2.", told)
        self.assertNotIn("stands behind", self.told("FAULT S2 2", ["INTEGER L M,"]))


if __name__ == "__main__":
    unittest.main()
