"""Which tests come to which statement: the program that is asked, and what is told where it is refused."""

import unittest
from unittest import mock

import running  # noqa: F401  it finds the package
from mutants.checks import coverage
from mutants.checks.checking import Checked
from mutants.checks.running import Means
from mutants.program.calling import Fault
from mutants.texts.cards import cards_of
from mutants.texts.jobs import Job
from mutants.texts.lines import Mutant
from mutants.texts.reports import Count, Report, Row

BLOCKS = """\
      SUBROUTINE A(I)
      DATA L/1/
   10 DO 20 J=MAX0(1,2),
     &  I
   20 L=J
      IF (I.EQ.1) THEN
      ELSE IF (I.EQ.2) THEN
      END IF
      END
"""


PRINTED = [
    "SUBROUTINE A(I)", "DATA L/1/", "DO 20 J=MAX0(1,2),I", "L=J", "IF (I.EQ.1) THEN", "ELSE IF (I.EQ.2) THEN", "END IF",
    "END",
]  # fmt: skip


WATCHED = """\
      SUBROUTINE A(I)
      DATA L/1/
   10 DO 20 J=(1-0)*(MAX0(1,2)),I
   20 L=J
      IF (1-0.EQ.1.AND.(I.EQ.1)) THEN
      ELSE IF (1-0.EQ.1.AND.(I.EQ.2)) THEN
      END IF
      END
"""


def blocks() -> Checked:
    """A check of three tests, with a mutant of DATA, of the terminal statement, of DO and of ELSE IF."""
    mutants = [("DSA", 1, 2, "X"), ("SAN", 1, 5, "TRAP"), ("UOI", 1, 3, "X"), ("UOI", 2, 7, "X")]
    listed = [Mutant(op, number, number, line, text) for op, number, line, text in mutants]
    bits = {"DSA": "000", "SAN": "110", "UOI": "010"}
    rows = [Row(*mutant[:3], "K", bits[mutant.op]) for mutant in listed]
    report = Report("A", 3, 9, 1, {"SAN": Count(1, 1, 0)}, rows, [])
    lines = {card.line: told for card, told in zip(cards_of(BLOCKS), PRINTED)}
    return Checked(Job(BLOCKS, [[1], [2], [3]]), PRINTED, lines, listed, report, report, [], [], [])


class Coverage(unittest.TestCase):
    def test_a_statement_does_the_same_with_one_minus_nothing_in_it(self) -> None:
        for told in ("IF (P) K=1", "IF (I) 1,2,3", "K=1", "END IF", "ELSE"):
            self.assertIsNone(coverage.watched(told))
        source, found = coverage.watched_source(blocks())
        self.assertEqual(source, WATCHED)
        self.assertEqual(
            found,
            {3: (3, "DO 20 J=1/0*"), 5: (6, "IF (1/0.EQ.1.AND."), 6: (7, "ELSE IF (1/0.EQ.1.AND.")},
        )

    def test_what_traps_leave_open_is_asked_of_that_program(self) -> None:
        listed = [Mutant("AOR", n, n, line, text) for n, (line, text) in enumerate([
            (3, "DO 20 J=(1+0)*MAX0(1,2),I"), (3, "DO 20 J=1/0*MAX0(1,2),I"), (5, "IF (1/0.EQ.1.AND.I.EQ.1) THEN"),
            (6, "ELSE IF (1/0.EQ.1.AND.I.EQ.2) THEN"),
        ], 1)]  # fmt: skip
        rows = [Row(*mutant[:3], "K", bits) for mutant, bits in zip(listed, ("111", "110", "111", "011"))]
        asked: list[str] = []

        def answer(job: Job, totals: object, means: object, name: str) -> Report:
            asked.append(job.source)
            return Report("A", 3, 9, 1, {}, rows, [])

        with mock.patch.object(coverage, "asked_list", return_value=({"AOR": 4}, listed)):
            with mock.patch.object(coverage, "asked_in_parts", answer):
                found = coverage.covering(blocks(), Means("none"), "check")
        self.assertEqual(found, {2: "111", 3: "110", 5: "110", 7: "011"})
        self.assertEqual(asked, [WATCHED])

    def test_else_the_tests_that_kill_are_told(self) -> None:
        with mock.patch.object(coverage, "asked_list", side_effect=Fault("list", "FAULT S6 3")):
            found = coverage.covering(blocks(), Means("none"), "check")
        self.assertEqual(found, {2: "111", 3: "010", 5: "110", 7: "010"})


if __name__ == "__main__":
    unittest.main()
