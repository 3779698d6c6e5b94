"""The parts of a page: the matrix of kills, the survivors, colours that can be told apart, and that it stays small."""

import random
import re
import struct
import time
import unittest
import zlib
from base64 import b64decode

import running
from mutants.pages.kill_sets import kill_sets, kill_sets_part, killers_text, names_of
from mutants.pages.matrix import MOST, Column, matrix_part, thinned
from mutants.pages.style import DARK, LIGHT
from mutants.pages.suite import alone_of, kills_of, needless_text
from mutants.pages.survivors import survivors_part, with_context
from mutants.texts.lines import Mutant
from mutants.texts.reports import Report, Row, read_report
from running import has
from tags import Tags


def columns_of(report: Report) -> tuple[list[Mutant], dict[int, str]]:
    """A list of mutants for the rows of a report, of one statement."""
    return [Mutant(row.op, row.number, row.place, 3, "K=J") for row in report.rows], {3: "K=I"}


def filled(source: str) -> int:
    """How many cells of a picture are filled."""
    data = b64decode(source.removeprefix("data:image/png;base64,"))
    at = data.index(b"IDAT")
    wide, tall = struct.unpack(">II", data[16:24])
    lines = zlib.decompress(data[at + 4 : at + 4 + struct.unpack(">I", data[at - 4 : at])[0]])
    size = -(-wide // 8) + 1
    assert len(lines) == size * tall
    rows = [lines[size * line + 1 : size * (line + 1)] for line in range(tall)]
    return sum(int.from_bytes(row, "big").bit_count() for row in rows)


class Matrices(unittest.TestCase):
    def test_the_examples(self) -> None:
        for name in running.EXAMPLES:
            report = read_report(running.example(name, ".report").read_text())
            listed, statements = columns_of(report)
            part = matrix_part(listed, report.rows, statements, report.tests)
            tags = Tags(part)
            self.assertEqual((tags.open, tags.wrong), ([], []))
            survivors = sum(row.status == "S" for row in report.rows)
            self.assertEqual(part.count('<u class="s"'), survivors)
            self.assertEqual(part.count("<u"), len(report.rows))
            images = [found for tag, found in tags.found if tag == "img"]
            self.assertLessEqual(max(int(found["width"]) for found in images), 320)
            kills = sum(row.bits.count("1") for row in report.rows)
            self.assertEqual(sum(filled(found["src"]) for found in images), kills)

    def test_a_column_has_its_change_its_tests_and_its_line(self) -> None:
        report = read_report(running.example("triangle", ".report").read_text())
        listed, statements = columns_of(report)
        part = matrix_part(listed, report.rows, statements, report.tests)
        has(self, part, '<a href="#L3" aria-label="line 3">', '<u title="ABS 3: I \u2192 J; 1-4 +6"></u>')
        has(self, part, '<u class="s" title="ABS 1: I \u2192 J; no test"></u>', "<b><i>1</i>10</b><b>20</b>")
        self.assertIn("<details><summary><b>ABS</b>", part)
        self.assertIn("<details open><summary><b>ROR</b>", part)

    def test_the_same_as_a_table(self) -> None:
        rows = [Row("ABS", n, n, "K" if "1" in bits else "S", bits) for n, bits in enumerate(
            ["1000", "0000", "1000", "1101", "1000", "1111", "0110"], 1)]  # fmt: skip
        self.assertEqual(
            [(killers_text(bits), names_of(alike)) for bits, alike in kill_sets([*rows, rows[0]._replace(op="UOI")])],
            [("no test", "ABS 2"), ("1", "ABS 1, 3, 5; UOI 1"), ("2-3", "ABS 7"), ("all but 3", "ABS 4"),
             ("all tests", "ABS 6")],
        )  # fmt: skip
        self.assertIn('<th scope="row">all but 3</th><td>ABS 4</td>', kill_sets_part(rows))

    def test_the_totals_of_the_tests(self) -> None:
        report = read_report(running.example("triangle", ".report").read_text())
        self.assertEqual(sum(kills_of(report.rows, 10)), sum(row.bits.count("1") for row in report.rows))
        self.assertEqual(kills_of(report.rows, 10)[0], sum(row.bits[0] == "1" for row in report.rows))
        alone = alone_of(report.rows, 10)
        self.assertEqual(sum(alone), sum(row.bits.count("1") == 1 for row in report.rows))
        self.assertEqual(needless_text([1, 0, 2, 0])[:41], "Tests 2 and 4 kill nothing that others do")
        self.assertEqual(needless_text([0] * 21)[:36], "21 of the tests kill nothing that ot")

    def test_a_large_matrix_is_thinned_and_says_so(self) -> None:
        rows = [Row("ABS", n, n, "K", "1" * 100) for n in range(1, 10_001)]
        listed = [Mutant("ABS", n, n, 3, "K=J") for n in range(1, 10_001)]
        columns = [Column(mutant, row, "K=I") for mutant, row in zip(listed, rows)]
        shown, every = thinned(columns, 100)
        self.assertLessEqual(len(shown) * 100, MOST)
        self.assertEqual([column.row.number for column in shown[:3]], [1, 1 + every, 1 + 2 * every])
        self.assertIn(f"each {every}th mutant of each operator", matrix_part(listed, rows, {3: "K=I"}, 100))
        untitled = matrix_part(listed[:5000], [row._replace(bits="1") for row in rows[:5000]], {3: "K=I"}, 1)
        self.assertEqual((untitled.count("<u></u>"), untitled.count("title=")), (5000, 0))


class Survivors(unittest.TestCase):
    LONG = "OK=IYEAR.GE.1583.AND.MONTH.GE.1.AND.MONTH.LE.12.AND.IDAY.GE.1"

    def test_what_is_far_from_the_change_is_marked(self) -> None:
        new = self.LONG.replace("MONTH.LE.12", "MONTH.LT.12")
        told = "<i>OK=IYEAR.GE.1583.AND.MONTH</i>.GE.1.AND.MONTH<del>.LE.</del><ins>.LT.</ins>12.AND.IDAY.GE.1"
        self.assertEqual(with_context(self.LONG, new), told)
        far = "K=" + "I+" * 60 + "J"
        self.assertEqual(with_context(far, far[:-1] + "K"), "\u2026I+I+I+I+I+I+I+<del>J</del><ins>K</ins>")
        self.assertEqual(with_context("K=I", "K=J"), "K=<del>I</del><ins>J</ins>")
        self.assertEqual(with_context("K=I", "CONTINUE"), "<del>K=I</del><ins>CONTINUE</ins>")

    def test_past_five_they_are_folded_and_so_are_those_of_abs(self) -> None:
        made = [("ABS", n, f"K=ABS{n}") for n in (1, 2)] + [("ROR", n, f"K={n}") for n in range(1, 8)]
        listed = [Mutant(op, n, n, 3, told) for op, n, told in [*made, ("UOI", 1, "K=ABS2")]]
        part = survivors_part(listed, "K=I")
        folds = part.split("<details>")
        self.assertEqual([fold.count("<li>") for fold in folds], [5, 3, 1])
        has(self, folds[0], "<b>ABS 2, UOI 1</b>", "<b>ROR 4</b>")
        has(self, folds[1], "<summary>3 more, of ROR</summary>")
        has(self, folds[2], "<summary><b>ABS</b> absolute value insertion: 1 survivor</summary>")


class Looks(unittest.TestCase):
    def test_the_colours_can_be_told_from_their_ground(self) -> None:
        for theme in (LIGHT, DARK):
            colours = dict(re.findall(r"--(\w+): (#\w+)", theme))
            ground = luminance(colours.pop("ground"))
            del colours["line"]
            self.assertEqual(len(colours), 4)
            for name, colour in colours.items():
                light, dark = sorted((ground, luminance(colour)), reverse=True)
                self.assertGreaterEqual((light + 0.05) / (dark + 0.05), 4.5, name)

    def test_a_page_of_many_mutants_and_tests_is_small(self) -> None:
        made = random.Random(1)
        tests, rows = 100, []
        ops = [("ABS", 400), ("CRP", 368), ("ROR", 500), ("SVR", 500)]
        for op, count in ops:
            for n in range(1, count + 1):
                kind = made.randrange(60)
                bits = "".join("01"[(kind * test) % 7 < 2] for test in range(tests)) if kind else "0" * tests
                rows.append(Row(op, n, n, "K" if "1" in bits else "S", bits))
        statement = "IF (I.EQ.J.OR.J.EQ.K.OR.K.EQ.I) THEN"
        listed = [Mutant(*row[:3], 5 + row.number % 20, statement.replace(".OR.", f".{row.op}.", 1)) for row in rows]
        begun = time.process_time()
        part = matrix_part(listed, rows, {line: statement for line in range(5, 25)}, tests)
        self.assertLess(time.process_time() - begun, 2)
        self.assertLess(len(part.encode()), 200_000)


def luminance(colour: str) -> float:
    """The relative luminance of a colour, as the guidelines on accessible content define it."""
    digits = colour[1:] if len(colour) == 7 else "".join(2 * digit for digit in colour[1:])
    parts = [int(digits[at : at + 2], 16) / 255 for at in (0, 2, 4)]
    red, green, blue = (part / 12.92 if part <= 0.04045 else ((part + 0.055) / 1.055) ** 2.4 for part in parts)
    return 0.2126 * red + 0.7152 * green + 0.0722 * blue


if __name__ == "__main__":
    unittest.main()
