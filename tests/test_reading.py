"""Texts of the program read as values, and refused where they are cut short or do not agree."""

import unittest

import running
from mutants.texts.jobs import read_job
from mutants.texts.lists import read_list
from mutants.texts.prints import read_print
from mutants.texts.reports import Count, read_report, score_of, sum_lines, summed

REPORT = """\
REPORT 2
UNIT ADD
TESTS 2
STEPS 100
EVERY 1
AOR 2 1 0
SDL 2 1 1
TOTAL 4 2 1
SCORE 66.66
MUTANT AOR 1 1 K 10
MUTANT AOR 2 2 S 00
MUTANT SDL 1 1 W 01
MUTANT SDL 2 2 E 00
SURVIVOR AOR 2 2 LINE 2 K=I*J
WRONG SDL 1 1
END
"""

LIST = "AOR 1\nAOR 1 1 LINE 2 K=I*J\nSDL 1\nSDL 1 1 LINE 2 CONTINUE\nTOTAL 2\n"


class Reports(unittest.TestCase):
    def test_reads_the_reports_of_the_examples(self) -> None:
        for name in running.EXAMPLES:
            with self.subTest(name):
                text = running.example(name, ".report").read_text()
                report = read_report(text)
                sums = sum_lines(report.counts.values())
                self.assertEqual(sums, [line for line in text.split("\n") if line[:6] in ("TOTAL ", "SCORE ")])
                self.assertEqual(report.tests, len(read_job(running.example(name, ".json").read_bytes()).suite))

    def test_reads_all_that_a_report_says(self) -> None:
        report = read_report(REPORT)
        self.assertEqual(report[:4], ("ADD", 2, 100, 1))
        self.assertEqual(report.counts, {"AOR": (2, 1, 0), "SDL": (2, 1, 1)})
        self.assertEqual([row.status for row in report.rows], ["K", "S", "W", "E"])
        self.assertEqual(report.survivors, [("AOR", 2, 2, 2, "K=I*J")])

    def test_refuses_each_beginning_of_a_report(self) -> None:
        for end in range(len(REPORT)):
            with self.subTest(end), self.assertRaises(ValueError):
                read_report(REPORT[:end])

    def test_refuses_a_report_without_one_of_its_lines(self) -> None:
        lines = REPORT.splitlines(keepends=True)
        for place in range(len(lines)):
            with self.subTest(lines[place]), self.assertRaises(ValueError):
                read_report("".join(lines[:place] + lines[place + 1 :]))

    def test_refuses_a_report_that_says_two_things(self) -> None:
        for old, new in (
            ("REPORT 2", "REPORT 1"), ("TESTS 2", "TESTS 3"), ("STEPS 100", "STEPS x"), ("AOR 2 1 0", "AOR 2 2 0"),
            ("TOTAL 4 2 1", "TOTAL 4 3 1"), ("66.66", "66.67"), ("K 10", "K 00"), ("K 10", "S 10"), ("S 00", "S 000"),
            ("SDL 1 1 W", "SDL 2 2 W"), ("SURVIVOR AOR 2", "SURVIVOR AOR 1"), ("WRONG SDL 1 1", "WRONG SDL 2 2"),
        ):  # fmt: skip
            with self.subTest(new), self.assertRaises(ValueError):
                read_report(REPORT.replace(old, new))

    def test_a_fault_in_the_place_of_a_report_is_told(self) -> None:
        with self.assertRaisesRegex(ValueError, "FAULT C4 2"):
            read_report("FAULT C4 2\n")

    def test_the_score_is_rounded_down(self) -> None:
        self.assertEqual(score_of(Count(3, 2, 0)), "66.66")
        self.assertEqual(score_of(Count(100_000, 99_999, 0)), "99.99")
        self.assertEqual(score_of(Count(5, 4, 1)), "100.00")
        self.assertEqual(score_of(Count(2, 0, 2)), "NONE")
        self.assertEqual(summed([]), (0, 0, 0))


class Lists(unittest.TestCase):
    def test_reads_a_list(self) -> None:
        totals, mutants = read_list(LIST)
        self.assertEqual(totals, {"AOR": 1, "SDL": 1})
        self.assertEqual(mutants[1], ("SDL", 1, 1, 2, "CONTINUE"))

    def test_refuses_each_beginning_and_each_list_without_a_line(self) -> None:
        lines = LIST.splitlines(keepends=True)
        texts = [LIST[:end] for end in range(len(LIST))]
        texts += ["".join(lines[:place] + lines[place + 1 :]) for place in range(len(lines))]
        for text in texts:
            with self.subTest(text), self.assertRaises(ValueError):
                read_list(text)


class Programs(unittest.TestCase):
    def test_joins_continuation_lines(self) -> None:
        printed = "      SUBROUTINE A(I)\n   10 I=1" + " " * 63 + "\n     ++2\n      END\n"
        self.assertEqual(read_print(printed), ["SUBROUTINE A(I)", "I=1" + " " * 63 + "+2", "END"])

    def test_refuses_a_program_that_is_cut(self) -> None:
        for text in ("", "      SUBROUTINE A(I)\n", "      END", "FAULT S7\n"):
            with self.subTest(text), self.assertRaises(ValueError):
                read_print(text)


class Jobs(unittest.TestCase):
    def test_refuses_what_is_no_job(self) -> None:
        for text in (b"", b"[]", b"{}", b'{"source": 1}', b'{"source": "", "suite": 1}', b"\xff", b"[" * 100_000):
            with self.subTest(text[:20]), self.assertRaises(ValueError):
                read_job(text)


if __name__ == "__main__":
    unittest.main()
