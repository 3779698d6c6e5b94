"""What else keeps a unit from being read: what is told first is taken out of a copy, and the program is asked again."""

import re
import unittest
from collections.abc import Iterable
from unittest import mock

import running  # noqa: F401  it finds the package
from mutants.explanations import also
from mutants.explanations.also import fault_lines
from mutants.explanations.copies import Copy
from mutants.explanations.habits import Seen
from mutants.explanations.sweep import SourceFault, all_faults
from mutants.texts.cards import cards_of
from running import LEAST

SOURCE = """\
      SUBROUTINE BAD(N,
     *  X,K)
      INTEGER N,X(N+1),TOOLONG,LONGERNAME
      REAL Y(10)
C     a comment
      DO I=1,N
  7   CALL SUB(K,
     *   2)
\tK=1
      END DO
      IF (K.GT.1.5) THEN
        K=TOOLONG
      END IF
      Z=MIN(K,Z)
      END
"""

# A program in the place of mothra: codes with what a statement has that has the fault, in the order of its rules.
RULES = (
    ("S2", r"CALL.*|ENDDO|REAL.*|.*1\.5.*|DOI=.*|INTEGER.*\([^)]*[A-Z].*\).*"),
    ("S3", r".*(TOOLONG|LONGERNAME).*"),
    ("C5", r".*MIN\(.*"),
)


def told_of(source: str) -> tuple[str, str] | None:
    """The first fault that the small program tells of a source."""
    for number, line in enumerate(source.split("\n"), 1):
        if "\t" in line:
            return "F4", str(number)
    cards = cards_of(source)
    for code in ("S", "C"):
        if code == "C" and any("Z" in card.text for card in cards) and "INTEGERZ" not in [card.text for card in cards]:
            return "C2", "Z"
        for card in cards:
            for rule, pattern in RULES:
                if rule.startswith(code) and re.fullmatch(pattern, card.text):
                    return rule, str(card.line)
    return None


HEAD, DECLARED = "      SUBROUTINE A(I)", "      INTEGER ABS"


def faults_in(found: Iterable[SourceFault]) -> list[str]:
    return [f"{each.code} {each.detail}" for each in found]


class Sweeps(unittest.TestCase):
    def test_each_fault_is_found_with_its_line(self) -> None:
        found, is_all = all_faults(SOURCE, told_of)
        wanted = ["F4 9", "S2 3", "S3 3", "S2 4", "S2 6", "S2 7", "S2 10", "S2 11", "S3 12", "C2 Z", "C5 14"]
        self.assertEqual(faults_in(found), wanted)
        self.assertTrue(is_all)

    def test_what_stays_is_a_program_with_the_same_lines(self) -> None:
        copy = Copy(SOURCE)
        while fault := told_of(copy.text()):
            self.assertTrue(copy.mended(*fault))
        kept = [(card.line, card.label, card.text) for card in cards_of(copy.text())]
        self.assertEqual(kept, [
            (1, "", "SUBROUTINEBAD(N,X,K)"), (3, "", "INTEGERZ"), (4, "", "INTEGERN,X(9),TOOLON,LONGER"),
            (5, "", "INTEGERY(10)"), (8, "7", "CONTINUE"), (10, "", "K=1"), (12, "", "IF(.TRUE.)THEN"),
            (13, "", "K=TOOLON"), (14, "", "ENDIF"), (16, "", "END"),
        ])  # fmt: skip

    def test_it_ends_where_nothing_can_be_taken_out(self) -> None:
        for fault in (("C11", "99"), ("C3", "K"), ("S1", ""), ("J2", ""), ("", ""), ("S2", "99"), ("C14", "")):
            with self.subTest(fault):
                found, is_all = all_faults(LEAST, lambda source, told=fault: told)  # type: ignore[misc]
                self.assertLessEqual(len(found), 1)
                self.assertFalse(is_all)
        found, is_all = all_faults(LEAST, lambda source: ("S2", "3"))
        self.assertEqual((faults_in(found), is_all), (["S2 3"], False))

    def test_lines_labels_and_ends_are_mended(self) -> None:
        for code, detail, lines, wanted in (
            ("F3", "2", ["A", "      K=\u00e9"], ["A", "      K=X"]),
            ("F5", "1", ["  X 0 K=1"], ["      K=1"]),
            ("F5", "1", ["K = 1"], ["      K = 1"]),
            ("F5", "1", ["  K=1"], ["      K=1"]),
            ("F5", "1", ["! NO"], [""]),
            ("F5", "1", ["D     K=1"], ["      K=1"]),
            ("F6", "1", ["     &K=1"], [""]),
            ("C6", "10", ["   10 K=1", "  010 K=2"], ["   10 K=1", "      K=2"]),
            ("S8", "", ["      K=1"], ["      K=1", "      END"]),
            ("S9", "2", ["      END", "      K=1", "C"], ["      END", ""]),
            ("S7", "", ["      INTEGER FUNCTION F(N)"], ["      SUBROUTINE F(N)"]),
            ("S2", "2", ["C", "      SUBROUTINE MY_SUB(I,*)"], ["C", "      SUBROUTINE MYSUB(I)"]),
            ("S2", "2", [HEAD, "      ELSE IF (K == 1) THEN"], [HEAD, "      ELSE IF (.TRUE.) THEN"]),
            ("S2", "2", [HEAD, "      IF (K.EQ.1) THEN ! ONE"], [HEAD, "      IF(K.EQ.1)THEN"]),
            ("S2", "2", [HEAD, "      END SUBROUTINE A"], [HEAD, "      END"]),
            ("S2", "2", [HEAD, "      INTEGER*4, SAVE :: K=1, L(0:N)"], [HEAD, "      INTEGERK,L(9)"]),
            ("S3", "2", [HEAD, "      LOGICAL P=.TRUE."], [HEAD, "      LOGICALP"]),
            ("S3", "2", [HEAD, "      IF (KILOGRAM.EQ.1) CONTINUE"], [HEAD, "      IF(KILOGR.EQ.1)CONTINUE"]),
            ("C3", "MOD", [HEAD, "      INTEGER MOD,K(3)"], [HEAD, "      INTEGERK(3)"]),
            ("C3", "K", [HEAD, "      INTEGER K", "      LOGICAL K"], [HEAD, "      INTEGER K", ""]),
            ("C2", "ABS", [HEAD, "      K=ABS(K)", "      L=ABS(I)"], [HEAD, DECLARED, "", "      L=ABS(I)"]),
        ):
            with self.subTest(lines[-1]):
                copy = Copy("\n".join(lines))
                self.assertTrue(copy.mended(code, detail))
                self.assertEqual(copy.lines, wanted)

    def test_names_are_not_looked_for_where_a_declaration_is_gone(self) -> None:
        faults = iter([("S4", "2"), ("C5", "3")])
        found, is_all = all_faults(
            "      SUBROUTINE A\n      INTEGER M(0)\n      M(1)=1\n      END\n", lambda source: next(faults)
        )
        self.assertEqual((faults_in(found), is_all), (["S4 2"], False))

    def test_an_end_of_a_logical_if_is_left_out_and_another_part_of_a_block_once(self) -> None:
        faults = iter([("C11", "3"), ("C11", "4"), ("C11", "5"), ("C13", "2"), ("C11", "6")])
        lines = [HEAD, "      IF (P) K=1", "      ELSE", "      END IF", "      ELSE", "      END IF", "      END", ""]
        found, is_all = all_faults("\n".join(lines), lambda source: next(faults))
        self.assertEqual((faults_in(found), is_all), (["C11 3", "C11 4", "C11 5", "C13 2"], False))


class Notes(unittest.TestCase):
    def told(self, *faults: SourceFault) -> list[str]:
        return fault_lines(faults, SOURCE, SourceFault("S2", "4", [Seen("REAL")]))

    def test_a_fault_is_told_with_its_line_and_its_text(self) -> None:
        (told,) = self.told(SourceFault("C2", "Z"))
        self.assertTrue(told.startswith("  line 14, C2 Z: Z=MIN(K,Z)\n      This name is REAL: "))
        # On a line that is none of a statement, one may begin in the copy.
        self.assertEqual(self.told(SourceFault("S2", "8"))[0].split("\n")[0], "  line 8, S2: 2)")
        (told,) = self.told(SourceFault("S2", "7", [Seen("CALL")]))
        self.assertTrue(told.startswith("  line 7, S2: CALL SUB(K,\n      CALL is a call of another subroutine. "))
        self.assertIn("Write the statements of that subroutine", told)

    def test_what_was_said_is_said_once(self) -> None:
        real, call = [Seen("REAL")], [Seen("CALL")]
        told = self.told(SourceFault("S2", "6", real), SourceFault("S2", "7", call), SourceFault("S2", "8", call))
        self.assertEqual(told[0], "  line 6, S2: DO I=1,N (as on line 4)")
        self.assertEqual(told[2], "  line 8, S2: 2) (as on line 7)")

    def test_more_than_ten_are_told_by_their_lines(self) -> None:
        found = [SourceFault("S2", str(line)) for line in range(1, 15)]
        with mock.patch.object(also, "all_faults", lambda source, ask: (found, False)):
            told = also.other_faults_text("mothra", SOURCE, SOURCE)
        self.assertIn("(13)", told)
        self.assertEqual(told.count(", S2"), 10)
        self.assertTrue(told.endswith("\n3 more stand on the lines 12, 13 and 14.\n"
                                      "What is wrong beyond these can be told when they are mended.\n"))


if __name__ == "__main__":
    unittest.main()
