"""Programs and tables as they are: bytes, tabs, units, adjustable bounds, cells, and what is told of them."""

import json
import re
import unittest
from pathlib import Path

import running
from mutants.jobs.cells import read_cell
from mutants.jobs.making import Made, made_of, whole_text
from mutants.jobs.remarks import hidden_statement, remarks_on_text
from mutants.jobs.setting import only_set, zeros_of
from mutants.jobs.sizes import bounds_of, read_sizes, sized, unsized
from mutants.jobs.sources import LARGEST, Wish, is_program
from mutants.jobs.tables import Table, read_table, titles_of
from mutants.jobs.units import units_of
from mutants.texts.decoding import decoded
from mutants.texts.tabs import without_tabs
from running import LEAST, Folder, refuses, run

SUM = """\
      SUBROUTINE SUM(N,X,JPNTR,LAST,K)
      INTEGER N,X(N),JPNTR(N+1),
     *        LAST(1),K
C     NOTHING ELSE
      DIMENSION MAT(2*N,*)
      K=X(1)
      END
"""
TWO = """\
C     one
      SUBROUTINE ONE(I)
      I=1
      END

C     two
      SUBROUTINE TWO(I)
      I=2
      END
"""


class Room(Folder):
    def made(self, source: str | bytes, table: str = "", wish: Wish = Wish(), ending: str = ".csv") -> Made:
        tests = self.put("tests" + ending, table) if table else None
        return made_of(self.put("program.f", source), tests, wish)


class Bytes(Room):
    def test_latin_1_utf_8_and_a_mark_in_front(self) -> None:
        for encoding in ("latin-1", "utf-8", "utf-8-sig"):
            source = self.made(f"C     l'\u00e9t\u00e9\r\n{LEAST}".encode(encoding)).source.text
            self.assertEqual(source, f"C     l'\u00e9t\u00e9\r\n{LEAST}")
        self.assertEqual(decoded(LEAST.encode() + b"\x1a\x1a"), LEAST)

    def test_the_job_is_ascii_whatever_the_comments_are(self) -> None:
        self.assertTrue(self.made(b"C \xe9\n" + LEAST.encode()).text().isascii())

    def test_other_endings_of_names(self) -> None:
        for name in ("least.for", "LEAST.FTN", "least.F", "least.f77"):
            self.assertTrue(is_program(Path(name)), name)
        for name in ("least.json", "least.f90", "least"):
            self.assertFalse(is_program(Path(name)), name)

    def test_a_source_over_the_limit_is_told(self) -> None:
        with self.assertRaisesRegex(
            ValueError, r"program.f: the source has 66,\d+ bytes, and a job takes 65,536: leave out"
        ):
            self.made("C\n" * 33_000 + LEAST)
        # What is left out of other units does not count.
        whole = LEAST + "C" * 70 + "\n" + TWO.replace("C     two\n", "C     two\n" * 7000)
        self.assertGreater(len(whole), LARGEST)
        self.assertEqual(self.made(whole, wish=Wish("LEAST")).source.unit, "LEAST")

    def test_a_suite_and_a_job_over_a_limit_are_told(self) -> None:
        made = self.made(LEAST, "1,2,0\n" * 257)
        self.assertEqual(len(made.suite), 257)
        with self.assertRaisesRegex(ValueError, "257 tests, and a job takes 256"):
            whole_text(made)
        made = self.made(
            "      SUBROUTINE A(M)\n      INTEGER M(9999)\n      END\n", ("-2147483648 " * 2500 + "\n") * 36
        )
        with self.assertRaisesRegex(ValueError, "the job has 1,.* bytes, and 1,048,576 are the limit"):
            whole_text(made)

    def test_batches_of_a_suite(self) -> None:
        made = self.made(LEAST, "1,2,0\n2,1,0\n")
        self.assertEqual(
            json.loads(made.text([], made.suite[1:])), {"source": LEAST, "suite": [[2, 1, 0]], "equivalent": []}
        )


class Tabs(Room):
    def test_the_first_leads_to_column_7_and_others_are_blanks(self) -> None:
        for line, wanted in (
            ("\tK=I", "      K=I"), ("10\tK=I", "10    K=I"), ("\t1+J", "     1+J"), ("\t\tK=I", "       K=I"),
            ("      K\t=\tI", "      K = I"), ("     &\t+J", "     & +J"), ("C\tcomment", "C\tcomment"),
            ("\t", "      "),
        ):  # fmt: skip
            with self.subTest(line):
                self.assertEqual(without_tabs(line), wanted)

    def test_they_are_refused_with_an_offer_and_read_where_it_is_taken(self) -> None:
        source = LEAST.replace("      K=I", "\tK=I\t! x")
        with self.assertRaisesRegex(ValueError, r"program.f: line 3 has a tab, .*: --expand-tabs reads the first tab"):
            self.made(source)
        self.assertEqual(self.made(source, wish=Wish(expands_tabs=True)).source.text.split("\n")[2], "      K=I ! x")
        self.made(LEAST.replace("C     K", "C\tK"))
        self.made(LEAST.replace("      K=I", f"{'      K=I':72}\tmore"))


class Units(Room):
    def test_one_is_picked_and_its_lines_keep_their_numbers(self) -> None:
        made = self.made(TWO, wish=Wish("two"))
        self.assertEqual(made.source.text.split("\n"), ["", "", "", "", *TWO.split("\n")[4:]])
        self.assertEqual((made.source.unit, made.remarks), ("TWO", []))
        self.assertEqual(self.made(TWO, wish=Wish("ONE")).source.text, TWO.partition("\n\n")[0] + "\n")

    def test_without_a_name_several_subroutines_are_refused(self) -> None:
        one, two = r"SUBROUTINE ONE \(lines 1 to 4\)", r"SUBROUTINE TWO \(lines 5 to 9\)"
        told = f"2 units, and --unit NAME says which is meant: {one}; {two}"
        with self.assertRaisesRegex(ValueError, told):
            self.made(TWO)
        with self.assertRaisesRegex(ValueError, "no unit has the name THREE: SUBROUTINE ONE"):
            self.made(TWO, wish=Wish("THREE"))
        with self.assertRaisesRegex(ValueError, "no unit has the name OTHER"):
            self.made(LEAST, wish=Wish("OTHER"))

    def test_the_only_subroutine_is_taken_and_told(self) -> None:
        main = "      INTEGER K\n      CALL LEAST(1,2,K)\n      END\n"
        made = self.made(main + LEAST + "      REAL FUNCTION F(X)\n      F=X\n      END\n")
        self.assertEqual(made.source.text, "\n\n\n" + LEAST)
        self.assertIn("of 3 units the only subroutine is taken, SUBROUTINE LEAST (lines 4 to 8)", made.remarks[0])

    def test_the_kinds_of_units(self) -> None:
        heads = "SUBROUTINE A", "INTEGER FUNCTION B(I)", "FUNCTION C(I)", "PROGRAM D", "BLOCK DATA", "I=1"
        found = units_of("".join(f"      {head}\n      END\n" for head in heads))
        wanted = ["SUBROUTINE A", "FUNCTION B", "FUNCTION C", "PROGRAM D", "BLOCK DATA", "a unit without a name"]
        self.assertEqual([unit.text().partition(" (")[0] for unit in found], wanted)

    def test_what_stands_behind_the_last_end_is_left_to_the_program(self) -> None:
        source = LEAST + "      K=1\n"
        self.assertEqual(self.made(source).source.text, source)
        self.assertEqual(units_of(source)[0].last, 6)

    def test_a_unit_with_tabs_is_found(self) -> None:
        source = TWO.replace("      ", "\t")
        self.assertEqual(
            self.made(source, wish=Wish("TWO", expands_tabs=True)).source.text.split("\n")[6], "      SUBROUTINE TWO(I)"
        )
        with self.assertRaisesRegex(ValueError, r"line 7 \(and 2 more\) has a tab"):
            self.made(source, wish=Wish("TWO"))


class Sizes(Room):
    def test_the_values_of_the_option(self) -> None:
        self.assertEqual(read_sizes("n=8, NPAIRS=14"), {"N": 8, "NPAIRS": 14})
        for word in ("", "N", "N=0", "N=8,N=9", "N=-1", "N=10001", "TOOLONG=1", "N=8;M=9"):
            with self.subTest(word), self.assertRaisesRegex(ValueError, "--size has"):
                read_sizes(word)

    def test_bounds_get_values_on_their_own_lines(self) -> None:
        found = sized(SUM, {"N": 8, "LAST": 9, "MAT": 3}).split("\n")
        self.assertEqual(found[1:3], ["      INTEGERN,X(8),JPNTR(9),LAST(9),K", ""])
        self.assertEqual(found[4], "      DIMENSIONMAT(16,3)")
        self.assertEqual(len(found), len(SUM.split("\n")))
        self.assertEqual(
            [(line, bound.text) for line, bound in unsized(SUM)], [(2, "N"), (2, "N+1"), (5, "2*N"), (5, "*")]
        )

    def test_expressions_are_those_of_the_language(self) -> None:
        for text, wanted in (
            ("N", 7), ("(N+1)*2", 16), ("N/2", 3), ("N-3*2", 1), ("2*N-(-1)", 15), ("-N+08", 1), ("1:N", 7),
            ("007", None),
        ):  # fmt: skip
            source = f"      SUBROUTINE A(X)\n      INTEGER X({text})\n      END\n"
            with self.subTest(text):
                found = sized(source, {"N": 7}).split("\n")[1] if wanted else ""
                self.assertEqual(found, f"      INTEGERX({wanted})" if wanted else "")
        for text in ("0:N", "M", "N**2", "N/0", "F(N)", "*"):
            source = f"      SUBROUTINE A(X)\n      INTEGER X({text}),Y(N)\n      END\n"
            self.assertIn(f"X({text}),Y(7)", sized(source, {"N": 7}))
        self.assertIn("INTEGERX(9),Y(7)", sized(source.replace("X(*)", "X(1:9)"), {"N": 7}))

    def test_a_name_that_gives_nothing_and_a_bound_below_1_are_refused(self) -> None:
        with self.assertRaisesRegex(ValueError, "--size has M, but no bound of an array is made of it"):
            sized(SUM, {"N": 8, "M": 1})
        with self.assertRaisesRegex(ValueError, "line 2: the bound N-9 of X becomes -1, and is 1 at least"):
            sized("      SUBROUTINE A(X)\n      INTEGER X(N-9)\n      END\n", {"N": 8})

    def test_a_line_without_room_is_told(self) -> None:
        names = ",".join(f"A{place:03}(N)" for place in range(7))
        source = f"      SUBROUTINE A\n      INTEGER {names}\n      END\n"
        self.assertEqual(len(source.split("\n")[1]), 6 + 8 + 7 * 8 - 1)
        self.assertIn("A006(1)", sized(source, {"N": 1}))
        with self.assertRaisesRegex(ValueError, "line 2: there is no room"):
            sized(source, {"N": 1000})

    def test_subscripts_and_nested_parentheses_are_no_bounds(self) -> None:
        self.assertEqual([bound.text for bound in bounds_of("INTEGERA(N,M),B,C((N+1)*2)")], ["N", "M", "(N+1)*2"])
        self.assertEqual(list(bounds_of("K=A(N)")), [])

    def test_tests_fit_the_sizes(self) -> None:
        wish = Wish(sizes={"N": 3, "LAST": 2, "MAT": 1})
        row = "3,1 2 3,1 2 3 4,1 2,0\n"
        made = self.made(SUM, "2,1 2 3,1 2 3 4,1 2,0\n" + row, wish)
        self.assertEqual(made.suite[1], [3, [1, 2, 3], [1, 2, 3, 4], [1, 2], 0])
        self.assertEqual(made.source.shown, SUM)
        for table, told in (
            (row.replace("1 2 3,", "4*1,", 1), "tests.csv: row 1: X has 4 elements, and its bounds with --size take 3"),
            (row + row.replace("1 2,0", "3*1,0"), "row 2: LAST has 3 elements, and its bounds with --size take 2"),
            (row.replace("3", "4", 1), "row 1: N is 4, above the 3 of --size"),
        ):
            with self.subTest(told), self.assertRaisesRegex(ValueError, told):
                self.made(SUM, table, wish)

    def test_a_bound_without_a_value_is_told_with_the_option(self) -> None:
        told = self.made(SUM).remarks
        self.assertIn("line 2: no number is the bound N of X and N+1 of JPNTR: --size N=.. gives values", told[0])
        self.assertIn(
            "line 5: no number is the bound 2*N of MAT and * of MAT: --size N=..,MAT=.. gives values", told[1]
        )
        self.assertEqual(len(told), 2)

    def test_arrays_of_one_element_are_told_with_the_size_that_the_tests_have(self) -> None:
        source = "      SUBROUTINE A(X,K,Y)\n      INTEGER X(1),Y(1)\n      END\n"
        told = self.made(source, "1 2 3,1,4 5\n1 2 3,2,4 5\n").remarks
        more = "the tests have more elements than the bounds of X and Y say: --size X=3,Y=2 follows them"
        self.assertEqual(told, [f"{self.folder}/tests.csv: {more}"])
        self.assertEqual(self.made(source, "1 2 3,1,4 5\n", Wish(sizes={"X": 3, "Y": 2})).remarks, [])
        told = self.made(source, "[[[1],1,[2]],[[1,2],1,[2]]]", ending=".json").remarks
        self.assertIn("the bounds of X say: --size X=2 follows them", told[0])
        told = self.made(source.replace("X(1),Y(1)", "X(*),Y(2,*)"), "1 2 3,1,4 5\n1 2,1,4 5\n").remarks
        self.assertIn("the bounds of X say: --size X=3 follows them", told[-1])

    def test_shorter_arrays_are_filled_where_the_last_bound_alone_has_a_size(self) -> None:
        source = "      SUBROUTINE A(X,K,P,Y)\n      INTEGER X(*),Y(N,2)\n      LOGICAL P(N)\n      END\n"
        wish = Wish(sizes={"X": 4, "N": 2})
        made = self.made(source, "1 2,1,T,4*5\n3*7,1,F T,4*5\n", wish)
        self.assertEqual(made.suite[0], [[1, 2, 0, 0], 1, [True, False], [5] * 4])
        self.assertEqual(made.suite[1], [[7, 7, 7, 0], 1, [False, True], [5] * 4])
        told = "rows with fewer elements than --size gives have 0 or F for those behind: P and X"
        self.assertEqual(made.remarks, [f"{self.folder}/tests.csv: {told}"])
        with self.assertRaisesRegex(ValueError, "row 1: Y has 3 elements, and its bounds with --size take 4"):
            self.made(source, "1 2,1,T,3*5\n", wish)

    def test_words_that_are_no_sizes_are_refused_as_words(self) -> None:
        status, out, errors = run("job", "--size", "N", self.put("a.f", SUM))
        self.assertEqual((status, out), (2, ""))
        self.assertIn("--size has 'N'", errors)


class Tables(Room):
    def table(self, text: str, ending: str = ".csv", dummies: tuple[str, ...] = ("I", "P", "M")) -> Table:
        return read_table(self.put("tests" + ending, text), dummies)

    def test_a_first_row_of_names_puts_them_in_order(self) -> None:
        found = self.table("M, p ,I\n1 2,T,7\n3 4,F,8\n")
        self.assertEqual((found.tests, found.rows), ([[7, True, [1, 2]], [8, False, [3, 4]]], [2, 3]))
        found = self.table('[["P","I","M"],[true,7,[1]]]', ".json")
        self.assertEqual((found.tests, found.rows), ([[7, True, [1]]], [2]))
        self.assertEqual(self.table("T,F\nT,F\n", dummies=("F", "T")).tests, [[False, True]])
        self.assertEqual(self.table("T,F\nT,F\n", dummies=("A", "B")).tests, [[True, False]] * 2)

    def test_further_columns_are_kept_apart(self) -> None:
        found = self.table("I,P,expect,M\n7,T,RETURNED 7,1 2\n")
        self.assertEqual((found.tests, found.others), ([[7, True, [1, 2]]], {"EXPECT": ["RETURNED 7"]}))

    def test_columns_beside_the_arguments_and_the_names_of_tests(self) -> None:
        found = self.table("Test,I,P,M,seen by (who)\nborder,7,T,1 2, ada\n,8,F,1 2,\n")
        self.assertEqual((found.tests[0], found.others["SEEN BY (WHO)"]), ([7, True, [1, 2]], [" ada", ""]))
        self.assertEqual(titles_of(found), ["border", ""])
        self.assertEqual(self.table("I,P,M,,\n7,T,1 2,see below,x\n").tests, [[7, True, [1, 2]]])
        self.assertEqual(titles_of(self.table("7,T,1 2\n")), [])

    def test_blank_cells_of_arguments_that_are_only_set(self) -> None:
        for text, ending in (("1,,\n2,T,\n", ".csv"), ("[[1,null,null],[2,true,null]]", ".json")):
            path = self.put(f"tests{ending}", text)
            found = read_table(path, ["I", "P", "M"], blanks={"P": False, "M": [0, 0]})
            self.assertEqual(found.tests, [[1, False, [0, 0]], [2, True, [0, 0]]])
            told = "cells that are left blank have the value behind each, since it is only set: P (F) and M (0)"
            self.assertEqual(found.remarks, [told])

    def test_which_arguments_are_only_set(self) -> None:
        for body, read in (
            ("K=I", "I"), ("K=K+I", "IK"), ("IF (I.GT.0) K=1", "I"), ("IF (K.GT.0) K=1", "K"), ("K=1|I=K", ""),
            ("IF (I.GT.0) K=1|I=K", "IK"), ("IF (I.GT.0) THEN|K=1|END IF|I=K", "IK"), ("DO 10 K=1,I|10 CONTINUE", "I"),
            ("DO 10 J=1,I|10 K=1|I=K", "IK"), ("DO 10 J=1,I|10 CONTINUE|K=1|I=K", "I"), ("GO TO 10|K=1|10 I=K", "K"),
            ("A(I)=K", "IK"), ("A(1)=A(2)", "A"), ("IF (I) 10,10,20|10 K=1|20 I=K", "IK"),
            ("GO TO (10,10),K|10 K=1", "K"), ("IF (I.GT.0) RETURN|K=1|A(1)=K", "I"),
        ):  # fmt: skip
            laid = [f" {each[:2]}   {each[3:]}" if each[0].isdigit() else f"      {each}" for each in body.split("|")]
            source = "\n".join(["      SUBROUTINE S(I,K,A)", "      INTEGER A(2)", *laid, "      END", ""])
            self.assertEqual(only_set(source, "IKA"), [name for name in "IKA" if name not in read], body)
        self.assertEqual(zeros_of(source, ["I", "K", "A"]), {"K": 0, "A": [0, 0]})

    def test_a_cell_is_told_by_row_and_column_with_the_reason(self) -> None:
        for text, told in (
            ("7,T,1 2\n7,x,1 2\n", "row 2, column 2 (P): 'x' is no number and no truth value"),
            ("7,T,1 2\n\n7,,1 2\n", "row 3, column 2 (P): the cell is empty, and the program reads P"),
            ("I,P,M,expcet\n", "row 1, column 4: EXPCET is no column that is known; is expect meant?"),
            ("7,T,0*1\n", "row 1, column 3 (M): '0*1' repeats a value 0 times: it is from 1 to 10000 times"),
            ("7,T,2*x\n", "row 1, column 3 (M): 'x' is no number"),
            (
                "2147483648,T,1\n",
                "row 1, column 1 (I): 2147483648 is out of range: a value is from -2147483648 to 2147483647",
            ),
            ("-99999999999999,T,1\n", "row 1, column 1 (I): -99999999999999 is out of range"),
            ("1.5,T,1\n", "row 1, column 1 (I): '1.5' is no whole number"),
            ("7;8,T,1\n", "row 1, column 1 (I): '7;8' has a semicolon: cells are separated by commas"),
            ("7;T;1 2\n", "row 1, column 1: '7;T;1 2' has semicolons: cells are separated by commas"),
            ("7,T,1 F\n", "row 1, column 3 (M): '1 F' has numbers and truth values in one array"),
            ("7,T\n", "row 1 has 2 cells, and 3 are wanted: I, P, M"),
            ("7,T,1 2\n7,T,1 2,\n", "row 2 has 4 cells, and 3 are wanted: I, P, M"),
            ("7 8 9\n", "row 1 has 1 cell, and 3 are wanted: I, P, M (blanks make one array of '7 8 9': cells are"),
            ("I,P,N\n", "row 1, column 3: N is no dummy argument; the dummy arguments are I, P and M"),
            ("I,P,I\n", "row 1, column 3: I stands twice"),
            ("I,P\n", "row 1 names no column for M"),
            ('"7\n', "row 1 has 1 cell"),
        ):
            with self.subTest(text), self.assertRaisesRegex(ValueError, re.escape(told)):
                self.table(text)

    def test_a_table_in_json_is_told_in_the_same_way(self) -> None:
        for text, told in (
            ("{}", "the table is no list of tests"),
            ("[5]", "row 1 is no list of values: 5"),
            ("[[1,true,[1]],[1,1.5,[1]]]", "row 2, column 2 (P): 1.5 is no value"),
            ("[[1,true,[]]]", "row 1, column 3 (M): [] is no value"),
            ("[[4294967296,true,[1]]]", "row 1, column 1 (I): 4294967296 is out of range"),
            ("[[1,true]]", "row 1 has 2 cells, and 3 are wanted"),
        ):
            with self.subTest(text), self.assertRaisesRegex(ValueError, re.escape(told)):
                self.table(text, ".json")

    def test_without_dummy_arguments_a_row_has_no_cell(self) -> None:
        with self.assertRaisesRegex(ValueError, "row 1 has 2 cells, and there is no dummy argument"):
            self.table("1,2\n", dummies=())
        self.assertEqual(self.table("[[], []]", ".json", ()).tests, [[], []])

    def test_a_row_that_becomes_one_array_is_told_once(self) -> None:
        found = self.table("3 4 5\n6 7 8\n", dummies=("M",))
        self.assertEqual(
            (found.tests, found.remarks),
            ([[[3, 4, 5]], [[6, 7, 8]]], ["row 1: '3 4 5' is one array of 3 elements, for M"]),
        )

    def test_cells(self) -> None:
        for cell, value in (
            (" +7 ", 7), ("-0", 0), ("0007", 7), ("t", True), (".TRUE.", True), (".f.", False), ("3*0", [0, 0, 0]),
            ("2*T .FALSE.", [True, True, False]), ("1 2*-3", [1, -3, -3]), (".", None), (" 1  2 ", [1, 2]),
            ("false F", [False, False]),
        ):  # fmt: skip
            with self.subTest(cell):
                if value is None:
                    self.assertRaises(ValueError, read_cell, cell)
                else:
                    self.assertEqual(read_cell(cell), value)


class Remarks(unittest.TestCase):
    def test_text_behind_column_72_is_told(self) -> None:
        line = "      K=I".ljust(72)
        comment = "C     more".ljust(72)
        source = f"      SUBROUTINE A\n{line}+J\n{line[:72]}     \n{comment}+J\n"
        self.assertEqual(remarks_on_text(source), ["line 2: '+J' stands behind column 72 and is not read"])
        numbers = "".join(f"{line}TRI{place:05}\n" for place in range(10, 30))
        told = remarks_on_text(f"{numbers}{line},K\n")
        self.assertEqual(told[0], "line 21: ',K' stands behind column 72 and is not read")
        self.assertIn("20 lines with what looks like the number of a card behind column 72", told[1])
        told = remarks_on_text(f"{line}+J\n" * 9)
        self.assertEqual(told, ["lines 1, 2, 3, 4, 5 and 4 more: text behind column 72 is not read, as '+J'"])

    def test_comments_that_look_like_statements(self) -> None:
        for line in (
            "CONTINUE", "CALL SUB(K)", "COUNT=COUNT+1", "*     K=K+1", "C     K = M(I) + 1", "C  10 GO TO 20",
            "C     IF (K.GT.0) GO TO 10", "COMMON A", "c     RETURN", "C     K=(I+J)*M(I,N(J))", "C     DO 10 I=1,N",
            "*     IF ((K).GT.0) THEN", "C     GO TO (10,20),I", "C     INTEGER M(5), N",
        ):  # fmt: skip
            with self.subTest(line):
                self.assertTrue(hidden_statement(line))
        for line in (
            "C", "C     K BECOMES THE LESSER OF I AND J.", "C     Return the lesser.", "* * * * *", "C-----", "*****",
            "CCCCCC", "C     N = NUMBER OF SIDES", "C     CALLED BY NOBODY", "C     DO NOT ENTER", "      K=1",
            "C     (G. J. Myers, 1979).", "C     If the sides are equal, ITYPE=1.", "C Copyright = none of it",
            "C     IF RETURN", "C" + " A(B)+" * 11 + "!", "C     DO 10 TIMES", "C" + "(" * 70, "C     (A)", "C     K=",
            "C     INTEGER VALUES", "C     CALL ME",
        ):  # fmt: skip
            with self.subTest(line):
                self.assertFalse(hidden_statement(line))
        told = remarks_on_text("      SUBROUTINE A\nCOUNT=1\n      END\n")
        self.assertEqual(told, ["line 2: column 1 makes a comment of what looks like a statement: 'COUNT=1'"])

    def test_the_examples_have_none(self) -> None:
        for path in sorted((running.ROOT / "examples").glob("*.f")):
            with self.subTest(path.name):
                self.assertEqual(remarks_on_text(path.read_text()), [])


class Jobs(Room):
    def test_warnings_are_told_and_the_job_is_made(self) -> None:
        program = self.put("least.f", LEAST.replace("      K=I\n", "      K=I".ljust(72) + "+J\n"))
        status, out, errors = run("job", program, self.put("t.csv", "K,J,I\n0,2,1\n"))
        self.assertEqual((status, json.loads(out)["suite"]), (0, [[1, 2, 0]]))
        self.assertEqual(
            errors, f"mutants job: warning: {program}: line 3: '+J' stands behind column 72 and is not read\n"
        )

    def test_a_table_that_does_not_serve_is_one_line(self) -> None:
        table = self.put("t.csv", "1,2,0\n1,2\n")
        refuses(
            self,
            run("job", self.put("least.f", LEAST), table),
            f"{table}: row 2 has 2 cells, and 3 are wanted: I, J, K",
        )


if __name__ == "__main__":
    unittest.main()
