"""The parts of a search for tests: shapes, values, rows, failing rows, experience, covers, simpler rows, tables."""

import unittest
from random import Random
from typing import Any
from unittest import mock

import running
from developing.suggestions import CASES
from mutants.checks.checking import Checked
from mutants.checks.running import Means
from mutants.jobs.making import made_of
from mutants.jobs.tables import Table
from mutants.program.calling import Fault
from mutants.suggestions import asking
from mutants.suggestions.asking import Asker, masks_of
from mutants.suggestions.borders import Borders, flat
from mutants.suggestions.clock import Clock
from mutants.suggestions.covering import few_rows
from mutants.suggestions.experience import Experience
from mutants.suggestions.failing import guarded, more_steps
from mutants.suggestions.rounds import LEAST_SIZE, Search
from mutants.suggestions.rows import Rows
from mutants.suggestions.shapes import Kept, Order, Row, Shape, items_of, order_of, row_of, test_of
from mutants.suggestions.simpler import simpler_rows
from mutants.suggestions.tables import layout_of
from mutants.suggestions.summary import ends_lines, left_lines, mutants_text
from mutants.suggestions.values import Values, constants_of
from mutants.texts.jobs import Job
from mutants.texts.lines import Mutant
from mutants.texts.proofs import Left
from mutants.texts.reports import Count, Report, Row as Verdict, read_report

FREE = Kept({}, {})
# A number, an array of numbers in order, a truth value, and an array of these.
SUITE: list[Row] = [(1, (1, 3, 5), True, (True, False)), (7, (2, 4, 9), False, (False, False))]
SIEVE = """\
      SUBROUTINE TRY(N,P,M)
      INTEGER M(2,3)
      LOGICAL P(3)
      DATA L/5/
      IF (N.GT.3) STOP
   10 M(1,N)=L+30
      IF (P(N)) RETURN
      GO TO (10,20),N
20    END
"""


class Shapes(unittest.TestCase):
    def test_arguments_are_those_of_the_tests(self) -> None:
        shape = Shape(SUITE, [], FREE)
        kinds = [(each.is_integer, each.is_array, each.low, each.high) for each in shape.arguments]
        self.assertEqual(kinds, [(1, 0, 1, 7), (1, 1, 1, 9), (0, 0, 0, 1), (0, 1, 0, 1)])
        self.assertEqual((shape.places(is_array=False), shape.places(is_array=True)), ([0], [1]))

    def test_a_test_is_a_row_and_back(self) -> None:
        for row in SUITE:
            self.assertEqual(row_of(test_of(row)), row)

    def test_the_order_that_all_arrays_are_in(self) -> None:
        for arrays, order in (
            ([(1, 3), (2, 2)], Order(False, False)), ([(1, 3), (2, 4)], Order(False, True)),
            ([(3, 1), (2, 2)], Order(True, False)), ([(3, 1), (1, 2)], None), ([(1, 3), (1, 3)], None),
            ([(1, 1), (2, 2)], None), ([(False, True), (False, False)], None), ([1, 2], None),
        ):  # fmt: skip
            self.assertEqual(order_of(arrays), order, arrays)

    def test_rows_keep_order_ranges_and_nearness(self) -> None:
        row: Row = (5, (9, 3, 3), True, (True, True))
        for kept, found in (
            (FREE, row), (Kept({1: Order(False, False)}, {}), (5, (3, 3, 9), True, (True, True))),
            (Kept({1: Order(True, False)}, {}), (5, (9, 3, 3), True, (True, True))),
            (Kept({1: Order(False, True)}, {}), None), (Kept({}, {0: (0, 5), 1: (3, 9)}), row),
            (Kept({}, {0: (0, 4)}), None), (Kept({}, {1: (4, 9)}), None), (Kept({}, {}, is_near=True), row),
        ):  # fmt: skip
            self.assertEqual(Shape(SUITE, [], kept).kept(row), found)
        self.assertIsNone(Shape(SUITE, [], Kept({}, {}, is_near=True)).kept((10, (1, 2, 3), True, (True, True))))

    def test_a_known_value_costs_least_and_a_far_one_most(self) -> None:
        shape = Shape([(1, 0), (7, 0)], [], FREE)
        costs = [shape.cost((value, 0)) for value in (0, 7, 6, 9, 10, 100, 2**31 - 1)]
        self.assertEqual(costs, sorted(costs))
        self.assertGreater(costs[4], costs[3] + 16)


class Made(unittest.TestCase):
    def test_constants_are_no_labels(self) -> None:
        printed = ["SUBROUTINE A1(I)", "DO 10 J=2,I", "GO TO 20", "GO TO (10,20),I+3", "IF (I-4) 10,20,30"]
        printed += ["IF (I.GT.5) GO TO 20", "IF (I.EQ.6) K=77", "A1=99999999999"]
        self.assertEqual(constants_of(printed), [2, 3, 4, 5, 6, 77])

    def test_values_are_near_the_tests_or_far(self) -> None:
        shape = Shape(SUITE, [100], FREE)
        values = Values(shape, Random(1))
        near = [values.value(0, SUITE[0], False) for _ in range(400)]
        far = [values.value(0, SUITE[0], True) for _ in range(400)]
        self.assertLessEqual({0, 1, 2, 5, 6, 7, 8, 9, 100, -100, 99, 101}, set(near))
        self.assertFalse({2**31 - 1, -(2**31)} & set(near))
        self.assertLessEqual({2**31 - 1, -(2**31)}, set(far))
        self.assertTrue(all(-(2**31) <= value < 2**31 for value in far))

    def test_rows_have_the_kinds_of_the_tests(self) -> None:
        shape = Shape(SUITE, [], FREE)
        rows = Rows(shape, Random(2))
        made = [rows.child(SUITE[0], SUITE[1], at % 3 == 0) for at in range(300)]
        made += [rows.anew(SUITE[0], at % 3 == 0) for at in range(100)]
        for row in made:
            kinds = [(type(value), len(value) if isinstance(value, tuple) else 0) for value in row]
            self.assertEqual(kinds, [(int, 0), (tuple, 3), (bool, 0), (tuple, 2)])
            self.assertEqual([{type(each) for each in items_of(row[place])} for place in (1, 3)], [{int}, {bool}])
        self.assertGreater(len(set(made)), 200)

    def test_variables_are_tied_together(self) -> None:
        rows = Rows(Shape([(1, 20, 300)], [], FREE), Random(3))
        made = {rows.child((1, 20, 300), (1, 20, 300), False) for _ in range(2500)}
        self.assertLessEqual({(20, 1, 300), (1, 1, 300), (1, 20, 21), (280, 20, 300), (20, 20, 20)}, made)

    def test_simpler_rows_cost_less_and_are_near(self) -> None:
        shape = Shape(SUITE, [], Kept({1: Order(False, False)}, {}))
        row: Row = (6, (4, 50, 600), False, (True, False))
        found = simpler_rows(shape, row, Random(1), 500)
        self.assertIn((1, (4, 50, 600), False, (True, False)), found)
        self.assertIn((6, (1, 2, 3), False, (True, False)), found)
        self.assertIn((6, (4, 50, 600), False, (False, False)), found)
        costs = list(map(shape.cost, found))
        self.assertEqual(costs, sorted(costs))
        self.assertTrue(all(cost < shape.cost(row) for cost in costs))
        self.assertEqual(len(simpler_rows(shape, row, Random(1), 5)), 5)


class Failing(unittest.TestCase):
    PRINTED = [
        "SUBROUTINE TRY(N,P,M)", "INTEGER M(2,3)", "LOGICAL P(3)", "DATA L/5/", "IF (N.GT.3) STOP", "M(1,N)=L+30",
        "IF (P(N)) RETURN", "GO TO (10,20),N", "END",
    ]  # fmt: skip
    ROW: Row = (1, (True, False, True), (1, 2, 3, 4, 5, 6))

    def test_the_program_that_tells_on_which_rows_another_fails(self) -> None:
        source = guarded(SIEVE, self.PRINTED, self.ROW)
        self.assertEqual(source, (running.TESTS / "suggestions" / "guarded.f").read_text())

    def test_there_is_none_without_arguments(self) -> None:
        self.assertIsNone(guarded("      SUBROUTINE TRY\n      END\n", ["SUBROUTINE TRY", "END"], ()))

    def test_it_may_take_more_steps_for_each_element(self) -> None:
        self.assertEqual(more_steps(self.ROW) - more_steps((1,)), 9 * 8)

    def asker(self) -> Asker:
        """An asker about the program above, of one mutant."""
        counts = {"SDL": Count(1, 0, 0)}
        report = Report("TRY", 1, 10000, 1, counts, [], [])
        parts: Any = dict.fromkeys(Checked._fields)
        checked = Checked(**{**parts, "job": Job(SIEVE, []), "printed": self.PRINTED, "whole": report})
        return Asker(checked, [Mutant("SDL", 1, 1, 5, "CONTINUE")], Means("none"), Clock(None))

    def answered(self, source: str, tests: list[Any]) -> str:
        """What a program says that fails where N is above 3: the made one names them all, the given one the first."""
        bad = [test[0] > 3 for test in tests]
        if "\n      RETURN\n" in source:
            bits = "".join("01"[each] for each in bad)
            killed = int("1" in bits)
            return report_text(len(tests), f"SDL 1 {killed} 0", f"MUTANT SDL 1 1 {'SK'[killed]} {bits}")
        if any(bad):
            raise Fault("run", f"FAULT B4 {bad.index(True) + 1}")
        return report_text(len(tests), "SDL 1 1 0", f"MUTANT SDL 1 1 K {'1' * len(tests)}")

    def ask(self, asker: Asker, rows: list[Row], is_guarded: bool) -> tuple[list[Row], dict[Row, int], int]:
        """The rows that are let through, what they kill, and how many calls that took."""
        import json

        def answer(program: str, words: list[str], job: bytes, seconds: float | None) -> str:
            given = json.loads(job)
            if "SDL" in words and "--every" in words and not is_guarded:
                raise Fault("run", "FAULT C14")
            return self.answered(given["source"], given["suite"])

        with mock.patch.object(asking, "answer", answer):
            ending = asker.ending(rows, 300)
            return ending, asker.kills(ending, ["SDL"], 300), asker.calls

    def rows(self) -> list[Row]:
        return [(number, *self.ROW[1:]) for number in range(1, 7)]

    def test_failing_rows_are_found_in_one_call(self) -> None:
        good = self.rows()[:3]
        self.assertEqual(self.ask(self.asker(), self.rows(), True), (good, dict.fromkeys(good, 1), 2))

    def test_where_no_such_program_is_taken_they_are_found_one_by_one(self) -> None:
        good = self.rows()[:3]
        ending, kills, calls = self.ask(self.asker(), self.rows(), False)
        self.assertEqual((ending, kills, calls), (self.rows(), dict.fromkeys(good, 1), 5))

    def test_another_fault_is_told(self) -> None:
        with mock.patch.object(asking, "answer", side_effect=Fault("run", "FAULT B1")):
            with self.assertRaisesRegex(Fault, "FAULT B1"):
                self.asker().kills(self.rows(), ["SDL"], 300)

    def test_rows_with_values_on_which_the_program_only_failed_are_without_hope(self) -> None:
        experience = Experience(Shape([(1, 5), (3, 5)], [], FREE))
        good: list[Row] = [(4, 5), (0, 5)]
        experience.learn([*good, *[(at, 5) for at in range(5, 11)], (0, 6), (0, 6), (0, 6)], good)
        told = [experience.is_hopeless(row) for row in [(4, 5), (0, 5), (99, 5), (-1, 5), (0, 6), (0, 7)]]
        self.assertEqual(told, [False, False, True, False, True, False])

    def test_what_each_row_kills_is_read_of_a_report(self) -> None:
        rows = [Verdict("ROR", 1, 3, "K", "101"), Verdict("ROR", 2, 5, "S", "000"), Verdict("SDL", 1, 1, "K", "010")]
        report = Report("TRY", 3, 300, 1, {}, rows, [])
        self.assertEqual(masks_of(report, {("ROR", 3): 0, ("ROR", 5): 1, ("SDL", 1): 2}), [1, 4, 1])
        self.assertEqual(masks_of(report, {("SDL", 1): 0}), [0, 1, 0])


def report_text(tests: int, counts: str, row: str) -> str:
    """The report on one mutant."""
    killed = counts.split()[2]
    last = [] if killed == "1" else ["SURVIVOR SDL 1 1 LINE 5 CONTINUE"]
    head = ["REPORT 2", "UNIT TRY", f"TESTS {tests}", "STEPS 300", "EVERY 1", counts, f"TOTAL 1 {killed} 0"]
    text = "\n".join([*head, f"SCORE {'100.00' if killed == '1' else '0.00'}", row, *last, "END", ""])
    assert read_report(text).tests == tests
    return text


class Border(unittest.TestCase):
    """A line with two mutants: the first is killed by rows below 700, the second by those above."""

    SHAPE = Shape([(0, 5), (1000, 5)], [], FREE)

    def kills(self, rows: list[Row]) -> dict[Row, int]:
        return {row: 1 if items_of(row[0])[0] < 700 else 2 for row in rows}

    def test_ways_between_rows_that_kill_others_lead_to_what_decides(self) -> None:
        borders, known = Borders(self.SHAPE, Random(1), [3]), self.kills([(0, 5), (1000, 5)])
        for _ in range(6):
            borders.begin(3, known)
            known |= self.kills(rows := borders.rows(known, 64))
            self.assertLessEqual(len(rows), 64)
            borders.learn(known)
        self.assertIn((699, 5), known)
        self.assertIn((700, 5), known)
        self.assertTrue(all(0 < items_of(row[0])[0] < 1000 for row in known if row not in ((0, 5), (1000, 5))))

    def test_there_is_no_way_where_the_same_is_killed_or_nothing_is_left(self) -> None:
        for lines, alive, rows in (([3], 3, [(0, 5), (9, 5)]), ([4], 4, [(0, 5), (1000, 5)])):
            borders = Borders(self.SHAPE, Random(1), lines)
            borders.begin(alive, self.kills(list(rows)))
            self.assertEqual(borders.rows([], 64), [])

    def test_where_several_values_differ_some_of_them_change(self) -> None:
        borders = Borders(Shape(SUITE, [], FREE), Random(1), [1])
        found = borders.between(*SUITE)
        self.assertTrue(found)
        for row in found:
            pairs = zip(flat(row), zip(flat(SUITE[0]), flat(SUITE[1])))
            self.assertTrue(all(item in pair for item, pair in pairs))
            self.assertNotIn(row, SUITE)


class Sizes(unittest.TestCase):
    def search(self, seconds: float | None, passed: float) -> Search:
        """A search that has so many seconds, of which some have passed."""
        asker = Failing().asker()
        asker.clock = Clock(seconds)
        asker.clock.begun -= passed
        shape = Shape([Failing.ROW], [], FREE)
        return Search(asker, shape, [Failing.ROW], Random(1), None)

    def test_a_round_has_as_many_rows_as_fit_its_share_of_the_time(self) -> None:
        for seconds, took, size in ((None, 99.0, 256), (120.0, 2.0, 256), (120.0, 22.0, 128), (120.0, 999.0, 16)):
            search = self.search(seconds, 0)
            search.learn_cost(took)
            self.assertAlmostEqual(search.size, size, delta=1)
        search = self.search(120.0, 0)
        search.begin([], 1.0)
        self.assertEqual(search.size, LEAST_SIZE)
        sizes = []
        for _ in range(3):
            search.learn_cost(0.1)
            sizes.append(search.size)
        self.assertEqual(sizes, [64, 256, 256])

    def test_a_search_ends_where_no_round_fits(self) -> None:
        for passed, goes in ((0.0, True), (54.0, True), (56.0, False)):
            self.assertEqual(self.search(100.0, passed).may_go_on(), goes)
        self.assertTrue(self.search(None, 1e9).may_go_on())


class Covers(unittest.TestCase):
    def test_few_rows_kill_all_and_are_cheap(self) -> None:
        kills: dict[Row, int] = {(1,): 0b0111, (3,): 0b1000, (4,): 0b0011, (9,): 0b1000}
        cost = {(1,): 5, (3,): 7, (4,): 1, (9,): 2}.__getitem__
        self.assertEqual(sorted(few_rows(0b1111, kills, cost)), [(1,), (9,)])
        self.assertEqual(few_rows(0b0011, kills, cost), [(4,)])
        self.assertEqual(few_rows(0, kills, cost), [])

    def test_a_cover_is_never_larger_than_the_greedy_one_needs(self) -> None:
        chance = Random(5)
        kills: dict[Row, int] = {(at,): chance.getrandbits(40) & chance.getrandbits(40) for at in range(60)}
        wanted = (1 << 40) - 1
        chosen = few_rows(wanted, kills, lambda row: items_of(row[0])[0])
        killed = [kills[row] for row in chosen]
        for mask in killed:
            self.assertTrue(mask & ~sum_of([other for other in killed if other is not mask]))
        self.assertEqual(sum_of(killed), sum_of(list(kills.values())))
        self.assertLess(len(chosen), 9)


def sum_of(masks: list[int]) -> int:
    found = 0
    for mask in masks:
        found |= mask
    return found


class Told(unittest.TestCase):
    def test_mutants_of_a_line_by_operator_and_twins_together(self) -> None:
        mutants = [Mutant("ROR", n, n, 3, f"IF (I.GT.{n}) K=1") for n in (1, 3, 4, 5)]
        twins = [Mutant("AAR", 1, 1, 3, "K=I"), Mutant("SDL", 1, 2, 3, "CONTINUE"), Mutant("SVR", 15, 15, 3, "K=I")]
        self.assertEqual(mutants_text(mutants + twins), "ROR 1 and 3 to 5; SDL 2; AAR 1, SVR 15 as one")

    def test_the_same_text_on_another_line_is_another_program(self) -> None:
        mutants = [Mutant("AAR", 1, 1, 3, "K=I"), Mutant("SVR", 15, 15, 4, "K=I")]
        self.assertEqual(mutants_text(mutants), "AAR 1; SVR 15")


class Ends(unittest.TestCase):
    """What is said of survivors whose proofs were given up."""

    MUTANTS = [Mutant("ROR", n, 2 * n, 3, f"IF (I.GT.{n}) K=1") for n in range(1, 5)]

    def ends(self, *lines: tuple[int, int, str | None]) -> dict[str, Left]:
        """The ends of the first mutants, by name."""
        return {f"ROR {n * 2}": Left("ROR", n, n * 2, *line) for n, line in enumerate(lines, 1)}

    def test_survivors_with_the_same_end_stand_together(self) -> None:
        told = [
            "  the proof ends at line 5, and values of K may differ there: ROR 2 and 6",
            "  the proof ends where the program is at line 5 and the mutant at line 6: ROR 4",
        ]
        self.assertEqual(list(ends_lines(self.MUTANTS, self.ends((5, 5, "K"), (5, 6, None), (5, 5, "K")))), told)
        self.assertEqual(list(ends_lines(self.MUTANTS, {})), [])

    def test_they_stand_behind_the_survivors_of_their_line(self) -> None:
        result: Any = mock.Mock()
        result.final.report.survivors, result.final.statements = self.MUTANTS[:1], {3: "IF (I.GT.0) K=1"}
        result.reached.by_line, result.reached.asked = {3: 7}, 7
        result.search.tried = [(at,) for at in range(7)]
        result.proving.proofs.left = self.ends((5, 5, None), (5, 6, None))
        told = ["line 3: IF (I.GT.0) K=1 (1 left; 7 of the 7 rows came here)", "  ROR 2     IF (I.GT.[0 -> 1]) K=1"]
        self.assertEqual(list(left_lines(result))[1:], [*told, "  the proof ends at line 5: ROR 2"])


class Lines(unittest.TestCase):
    def test_a_row_as_a_table_has_it(self) -> None:
        names = ["N", "M", "P", "Q"]
        columns = ["Q", "EXPECT", "M", "N", "P"]
        for name, table, line in (
            ("x.csv", Table([], [], {}, []), "1,1 3 5,T,T F"),
            ("x.csv", Table([], [], {}, [], columns), "T F,,1 3 5,1,T"),
            ("x.json", Table([], [], {}, []), "[1, [1, 3, 5], true, [true, false]]"),
        ):
            self.assertEqual(layout_of(running.ROOT / name, table, names).line(SUITE[0]), line)


class Cases(unittest.TestCase):
    def test_each_has_tables_that_fit_it_and_a_start_that_is_less(self) -> None:
        for case in CASES.values():
            full = made_of(case.program, case.full)
            start = full.suite[: case.start] if isinstance(case.start, int) else made_of(case.program, case.start).suite
            self.assertEqual(full.remarks, [])
            self.assertLess(len(start), len(full.suite))


if __name__ == "__main__":
    unittest.main()
