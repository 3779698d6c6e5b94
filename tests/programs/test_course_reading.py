"""A class whose program is read with options: one of several units, tabs; and what is told of programs and tables."""

import unittest

from test_course import SUITES, Class
from room import GREAT
from running import LEAST, has

TWO = (LEAST + GREAT).replace("      ", "\t")
DECLARED = "mutant,before,after,reason\nROR 5,IF (J.GT.I) K=J,IF (J.GE.I) K=J,the same\n"


class Reading(Class):
    def test_a_unit_with_tabs(self) -> None:
        self.hand_in({"two.f": TWO, "anna.json": SUITES["anna.json"], "two.great.equivalent.csv": DECLARED})
        self.assertEqual(self.course("--unit", "GREAT")[0], 1)
        self.assertIn("two.f: line 7 (and 3 more) has a tab", self.table()["anna"]["told"])
        status, _, errors = self.course("--unit", "GREAT", "--expand-tabs")
        self.assertEqual((status, "warning" in errors), (0, False), errors)
        row = self.table()["anna"]
        self.assertEqual((row["unit"], row["equivalent"], row["score"]), ("GREAT", "1", "100.00"))
        page = (self.folder / "out" / "jobs" / "anna.html").read_text()
        has(self, page, '<span class="number">9</span>', "the same</span>")
        self.assertNotIn("SUBROUTINE LEAST", page)

    def test_options_lie_beside_the_program(self) -> None:
        self.hand_in({"two.f": TWO, "anna.json": SUITES["anna.json"]})
        self.hand_in({"mutants.ini": "[mutants]\nunit = GREAT\nexpand-tabs = yes\nsize = N=3\nreport = x\n"})
        status, _, errors = self.course()
        self.assertEqual((status, self.table()["anna"]["unit"]), (0, "GREAT"), errors)
        self.hand_in({"mutants.ini": "[mutants]\nsshlogin = anna\n"})
        self.assertIn("sshlogin is for the command line alone", self.course()[2])

    def test_what_may_be_meant_otherwise_is_told_once(self) -> None:
        program = LEAST.replace("      K=I\n", "      K=I".ljust(72) + "+J\n")
        self.hand_in({"least.f": program, "anna.json": SUITES["anna.json"], "bert.csv": SUITES["bert.csv"]})
        status, _, errors = self.course()
        self.assertEqual(status, 0)
        told = "least.f: line 3: '+J' stands behind column 72 and is not read"
        self.assertEqual(errors.count(told), 1, errors)
        has(self, (self.folder / "out" / "jobs" / "anna.html").read_text(), "stands behind column 72")


if __name__ == "__main__":
    unittest.main()
