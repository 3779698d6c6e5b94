"""The command with the programs that were proved: what it tells is what their reports say."""

import json
import subprocess
import unittest

from proved import EQUIVALENTS, MOTHRA, OPS, mutants, said
from mutants.statuses import BELOW, FAULT, SUCCESS
from mutants.texts.reports import read_report, score_of, summed
from running import LEAST, Folder, example, has

# By the definitions of the four operators: each other relation and both truth values; RETURN, a trap and CONTINUE for
# each statement, and for the statement of the IF.
MUTANTS = """\
ROR 7
ROR 1 1 LINE 4 IF (J.LE.I) K=J
ROR 2 2 LINE 4 IF (J.EQ.I) K=J
ROR 3 3 LINE 4 IF (J.NE.I) K=J
ROR 4 4 LINE 4 IF (J.GE.I) K=J
ROR 5 5 LINE 4 IF (J.GT.I) K=J
ROR 6 6 LINE 4 IF (.TRUE.) K=J
ROR 7 7 LINE 4 IF (.FALSE.) K=J
RSR 3
RSR 1 1 LINE 3 RETURN
RSR 2 2 LINE 4 RETURN
RSR 3 3 LINE 4 IF (J.LT.I) RETURN
SAN 3
SAN 1 1 LINE 3 TRAP
SAN 2 2 LINE 4 TRAP
SAN 3 3 LINE 4 IF (J.LT.I) TRAP
SDL 3
SDL 1 1 LINE 3 CONTINUE
SDL 2 2 LINE 4 CONTINUE
SDL 3 3 LINE 4 IF (J.LT.I) CONTINUE
TOTAL 16
"""


class Least(unittest.TestCase):
    def test_the_mutants_of_the_subroutine_of_these_tests(self) -> None:
        self.assertEqual(said("list", json.dumps({"source": LEAST}).encode(), "--ops", OPS), MUTANTS)


class Examples(Folder):
    def test_a_check_gives_the_stored_report_and_tells_its_score(self) -> None:
        for name in ("euclid", "closure", "triangle-weak", "date"):
            program, report = example(name.split("-")[0], ".f"), self.folder / "report"
            tests = example(name, ".suite.json") if name != "date" else example(name, ".csv")
            status, out, errors = mutants("check", "--no-page", "--report", report, program, tests, ops="")
            stored = example(name, ".report").read_text()
            count = summed(read_report(stored).counts.values())
            self.assertEqual((status, report.read_text()), (SUCCESS, stored), errors)
            of_all = f"{count.killed} of {count.total - count.equivalent}"
            has(self, out, f"Score {score_of(count)} %: {of_all} mutants killed")
            self.assertEqual(mutants("job", program, tests)[1], example(name, ".json").read_text())

    def test_what_is_proved_equivalent_does_not_count(self) -> None:
        words = ("--ops", "ROR", "--no-page", example("date", ".f"), example("date", ".csv"))
        status, out, errors = mutants("check", *words, proofs=EQUIVALENTS)
        self.assertEqual(status, SUCCESS, errors)
        has(self, out, "As expected on 17 tests.\n", "Score 93.68 %: 89 of 95 mutants killed", "90.81 %: 89 of 98")

    def test_a_threshold_and_a_page(self) -> None:
        page = self.folder / "date.html"
        words = ("--ops", "ROR", "--page", page, "--fail-under", "91", example("date", ".f"), example("date", ".csv"))
        self.assertEqual(mutants("check", *words)[0], BELOW)
        has(self, page.read_text(), "90.81", "89 of 98", "<h1", "IDAY.LE.28")


class Faults(Folder):

    def test_a_test_on_which_the_program_fails_is_told(self) -> None:
        program = self.put("d.f", "      SUBROUTINE D(I,K)\n      K=10/I\n      END\n")
        status, out, errors = mutants("check", "--no-page", program, self.put("d.csv", "0,0\n"))
        self.assertEqual(status, FAULT)
        has(self, out + errors, "DIVIDEBYZERO")

    def test_explain_tells_each_fault_with_its_line(self) -> None:
        program = self.put("b.f", "      SUBROUTINE B(I,K)\n      REAL X\n      K=I+1\n      WRITE(6,*) K\n      END\n")
        status, out, _ = mutants("explain", program)
        has(self, out, "     2 |       REAL X\n", "REAL declares numbers with fractions.", "  line 4, S2: WRITE(6,*) K")


class Programs(unittest.TestCase):
    def test_they_are_there(self) -> None:
        for program in (MOTHRA, EQUIVALENTS):
            self.assertEqual(subprocess.run([program, "--help"], capture_output=True).returncode, SUCCESS)


if __name__ == "__main__":
    unittest.main()
