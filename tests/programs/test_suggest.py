"""Suggested tests: what is told, what is kept, files, how the search ends."""

import csv
import io
import re
from typing import Any
from unittest import mock

import running
from proved import mutants
from room import Room
from mutants import statuses
from mutants.declarations.proofs import NO_PROOFS, Proofs
from mutants.declarations.proving import Prover
from mutants.program.calling import OutOfTime
from mutants.subcommands import suggest  # noqa: F401  read once, for all copies of this process
from mutants.suggestions import choosing, clock, rounds
from mutants.suggestions.asking import Asker
from mutants.suggestions.clock import Clock
from running import has, refuses

# J is not below I here, so what is left out or changed on line 4 is not seen.
ONE = "1,2,0\n"
# Survivors that no test kills: where I and J are the same .LE. does what .LT. does.
EQUIVALENT = "  ROR 1     IF (J[.LT. -> .LE.]I) K=J\n"


class Search(Room):
    """A room with a table of one test, and a search that gives up after some rounds."""

    def setUp(self) -> None:
        super().setUp()
        self.tests = self.put("tests.csv", ONE)
        for module, name, value in ((rounds, "SIZE", 16), (rounds, "PATIENCE", 3), (choosing, "SIZE", 16)):
            running.holds(self, mock.patch.object(module, name, value))

    def suggest(self, *words: object) -> running.Ended:
        return mutants("suggest", *words, self.program, self.tests)

    def told(self, *words: object) -> str:
        """The text of a search that is made."""
        status, out, errors = self.suggest("--rounds", "9", *words)
        self.assertEqual((status, errors), (statuses.SUCCESS, ""))
        return out

    def rows(self, out: str) -> list[list[str]]:
        """The suggested rows of a text, near ones and far ones."""
        blocks = re.findall(r"^With [a-z ]* of the tests:\n((?:[^ \n].*\n)+?)(?=\n|With )", out, re.M)
        return [row for block in blocks for row in csv.reader(io.StringIO(block))]

    def put_table(self, name: str, *rows: object) -> None:
        self.tests = self.put(name, "".join(f"{row}\n" for row in rows))


class Told(Search):
    def test_rows_kill_what_the_table_does_not_and_what_is_left_is_told(self) -> None:
        out = self.told()
        rows = self.rows(out)
        has(self, out, "LEAST of ", ": 1 test\n", "\nThe tests: Score 50.00 %: 8 of 16 mutants killed, ")
        has(self, out, "With the rows below: Score 93.75 %: 15 of 16 mutants killed, ", EQUIVALENT)
        has(self, out, "There is one survivor on 1 line that no row killed. That is a hint at equivalence")
        self.assertTrue(rows)
        self.put_table("more.csv", ONE.strip(), *(",".join(row) for row in rows))
        self.assertIn("Score 93.75 %: 15 of 16 mutants killed", self.check("--no-page")[1])

    def test_each_row_has_its_outcome_and_the_survivors_that_it_kills_by_line(self) -> None:
        out = self.told()
        for number, row in enumerate(self.rows(out), 2):
            i, j, _ = map(int, row)
            told = f"test {number}  {','.join(row)}: RETURNED {i} {j} {min(i, j)}\n  kills "
            self.assertRegex(out, re.escape(told) + r"\d survivors?, \d of them alone\n  line 4: R\w\w \d")

    def test_how_many_rows_came_to_the_line_of_a_survivor(self) -> None:
        found = re.search(r"^Tried: (\d+) rows, \d rounds, seed 1\.$", out := self.told(), re.M)
        assert found
        self.assertIn(f"line 4: IF (J.LT.I) K=J (1 left; {found[1]} of the {found[1]} rows came here)\n", out)

    def test_where_the_proof_of_a_survivor_was_given_up(self) -> None:
        text = "LEFT ROR 1 1 AT 5 5 VALUES N\\nPROVED 0 OF 16\\n"
        saying = self.put_program("saying", f"#!/bin/sh\ncat > /dev/null\nprintf '{text}'\n")
        out = mutants("suggest", "--rounds", "9", self.program, self.tests, proofs=saying)[1]
        told = "  the proof ends at line 5, and values of N may differ there: ROR 1\n"
        self.assertIn(f"{EQUIVALENT}{told}", out)

    def test_the_time_is_that_of_the_search_alone(self) -> None:
        with mock.patch.object(clock, "time") as time:
            time.monotonic.return_value = 0

            def slow(prover: Prover, *asked: object) -> Proofs:
                time.monotonic.return_value = 1000
                return NO_PROOFS

            with mock.patch.object(Prover, "proofs", slow):
                out = self.suggest("--seconds", "500")[1]
        self.assertRegex(out, r"Tried: [1-9]\d* rows")

    def test_without_a_row_there_is_no_hint(self) -> None:
        with mock.patch.object(Asker, "kills", side_effect=OutOfTime):
            out = self.suggest()[1]
        has(self, out, "Tried: 0 rows", "that no row killed. No row was tried, so this says nothing of them.\n")
        self.assertNotIn("hint", out)

    def test_the_same_seed_and_rounds_give_the_same_text(self) -> None:
        texts = [self.told("--seed", seed) for seed in ("1", "1", "2", "3", "4")]
        self.assertEqual(texts[0], texts[1])
        self.assertGreater(len(set(texts)), 1)

    def test_where_nothing_survives_there_is_nothing_to_suggest(self) -> None:
        self.put_table("tests.csv", "1,2,0", "2,1,0")
        names = self.put("names.json", '["ROR 1"]')
        out = mutants("suggest", "--equivalent", names, self.program, self.tests)[1]
        has(self, out, "15 of 15 mutants killed, not counting 1 declared", "there is nothing to suggest")

    def test_a_table_without_a_test_is_enough(self) -> None:
        self.put_table("tests.csv")
        out = self.told()
        has(self, out, ": 0 tests\n", "\nThe tests: Score 0.00 %", "With the rows below: Score 93.75 %")

    def test_declared_mutants_are_left_alone_and_told_where_a_row_kills_them(self) -> None:
        self.put("least.equivalent.json", '["ROR 1", "SDL 2"]')
        status, out, errors = self.suggest("--rounds", "9")
        self.assertEqual(status, statuses.SUCCESS)
        wrong = "WRONGLY DECLARED EQUIVALENT: SDL 2. A test kills it."
        has(self, out, wrong, "No mutant survives that is not declared")
        self.assertNotIn("SDL 2", out.partition(wrong)[2])

    def test_operators_and_lines_as_for_a_check(self) -> None:
        out = self.told("--ops", "ROR")
        has(self, out, "Left out: the mutants of all operators but ROR.", "6 of 7 mutants killed, of those")
        self.assertNotIn("SDL", out)
        self.assertIn("there is nothing to suggest", self.told("--lines", "1-3"))

    def test_a_program_that_does_not_do_what_is_expected_is_told(self) -> None:
        self.put_table("tests.csv", "I,J,K,expect", "1,2,0,K=2")
        self.assertIn("NOT AS EXPECTED: 1 test.", self.told())


class Tables(Search):
    def test_rows_have_the_columns_of_the_table_and_expect_nothing(self) -> None:
        self.put_table("tests.csv", "K,expect,J,I", "0,K=1,2,1")
        for row in self.rows(self.told()):
            self.assertEqual((len(row), row[1]), (4, ""))
            self.assertGreater(int(row[3]), int(row[2]) - 1)

    def test_a_table_in_json_has_rows_in_json(self) -> None:
        self.tests = self.put("tests.json", "[[1, 2, 0]]")
        self.assertRegex(self.told(), r"(?m)^\[-?\d+, -?\d+, -?\d+\](,|$)")

    def test_the_table_with_the_rows_is_written(self) -> None:
        for name, text, front in (
            ("tests.csv", "1,2,0", "1,2,0\n"),
            ("tests.csv", "I,J,K\r\n1,2,0\r\n", "I,J,K\r\n1,2,0\r\n"),
            ("tests.json", "[[1, 2, 0]]", "[\n  [1, 2, 0],\n  ["),
        ):
            self.tests = self.put(name, "")
            self.tests.write_bytes(text.encode())
            more = self.folder / f"more{self.tests.suffix}"
            out = self.told("--table", more)
            self.assertIn(f"The table with the rows: {more}\n", out)
            self.assertTrue(more.read_bytes().decode().startswith(front))
            self.assertEqual("\r" in front, more.read_bytes().count(b"\r\n") > 2)
            self.tests = more
            self.assertIn("15 of 16 mutants killed", self.check("--no-page")[1])

    def test_the_table_takes_the_place_of_no_file_that_is_read(self) -> None:
        for path in (self.tests, self.program):
            refuses(self, self.suggest("--table", path), "reads it")
        refuses(self, self.suggest("--table", self.folder / "none" / "x.csv"), "there is no folder")

    def test_needless_tests_are_told_and_left_out_of_the_table(self) -> None:
        self.put_table("tests.csv", "I,J,K", "1,2,0", "", "1,2,1", "1,2,3")
        more = self.folder / "more.csv"
        out = self.told("--drop", "--table", more)
        self.assertRegex(out, r"Tests 2 and 3 of the table may be left out then: the other \d tests kill the same")
        self.assertEqual(more.read_text().splitlines()[:2], ["I,J,K", "1,2,0"])
        self.assertNotIn("1,2,3", more.read_text())
        self.put_table("tests.csv", "1,2,0")
        self.assertIn("No test of the table becomes needless.", self.told("--drop"))


class Kept(Search):
    def test_ranges_by_number_and_by_name(self) -> None:
        out = self.told("--ranges", "1=-1:9,J=0:2", "--ranges", "3=0:0")
        has(self, out, "Kept: I is from -1 to 9 (--ranges).", "Kept: K is from 0 to 0 (--ranges).")
        for row in self.rows(out):
            self.assertTrue(-1 <= int(row[0]) <= 9 and 0 <= int(row[1]) <= 2 and row[2] == "0", row)

    def test_wrong_ranges_are_refused(self) -> None:
        for word, told in (("x", "no range"), ("1=2:1", "has no value"), ("1=0:2147483648", "has no value")):
            status, _, errors = self.suggest("--ranges", word)
            self.assertEqual(status, statuses.WORDS)
            self.assertIn(told, errors)
        none = "4 is no argument: these are 1 I, 2 J, 3 K"
        for word, told in (("4=0:1", none), ("J=5:6", "test 1 has a value of J")):
            refuses(self, self.suggest("--ranges", word), told)
        refuses(self, self.suggest("--free", "0"), "0 is no argument")

    def test_nice_rows_have_no_far_value(self) -> None:
        out = self.told("--nice", "--seed", "3")
        self.assertIn("Kept: no value is far from those of the tests (--nice).", out)
        self.assertNotIn("with a value far from", out)
        for row in self.rows(out):
            self.assertTrue(all(-2 <= int(cell) <= 4 for cell in row), row)

    def test_options_of_the_file_beside_the_program_that_a_search_has(self) -> None:
        settings = self.put("mutants.ini", "[mutants]\nops = ROR\nfail-under = 80\nno-page = yes\n")
        out = self.told()
        has(self, out, "all operators but ROR", f"Options are from {settings}, too.\n")


class Ends(Search):
    def cut(self, after: int) -> running.Ended:
        """What comes of a search that gets Ctrl-C in the round after so many."""
        go = rounds.Search.round

        def round_of(search: rounds.Search) -> None:
            if search.round_number == after:
                raise KeyboardInterrupt
            go(search)

        with mock.patch.object(rounds.Search, "round", round_of):
            return self.suggest("--rounds", "9")

    def test_ctrl_c_tells_what_was_found(self) -> None:
        status, out, errors = self.cut(1)
        self.assertEqual((status, errors), (statuses.INTERRUPTED, ""))
        has(self, out, "Cut short by Ctrl-C", " rows, 1 round, seed 1.", "With the rows below: Score 93.75 %")
        status, out, _ = self.cut(0)
        self.assertEqual(status, statuses.INTERRUPTED)
        has(self, out, "No row was found that kills a survivor.", "There are 8 survivors on 1 line")

    def test_so_many_rounds_are_made_whatever_time_they_take(self) -> None:
        with mock.patch.object(rounds, "PATIENCE", 99), mock.patch.object(Clock, "passed", lambda clock: 1e9):
            self.assertIn(", 9 rounds, ", self.told())

    def test_seconds_end_a_search(self) -> None:
        times = iter(range(1000))
        with mock.patch.object(rounds, "PATIENCE", 10**9), mock.patch.object(Clock, "passed", lambda _: next(times)):
            status, out, errors = self.suggest("--seconds", "200")
        self.assertEqual((status, errors), (statuses.SUCCESS, ""))
        self.assertIn("With the rows below: Score 93.75 %", out)
        self.assertLess(next(times), 300)

    def test_a_call_that_takes_too_long_is_ended_and_what_was_found_is_told(self) -> None:
        def kills(asker: Asker, *rest: Any) -> dict[Any, int]:
            if asker.calls > 30:
                raise OutOfTime
            return of_asker(asker, *rest)

        of_asker = Asker.kills
        with mock.patch.object(Asker, "kills", kills), mock.patch.object(rounds, "PATIENCE", 10**9):
            status, out, errors = self.suggest("--seconds", "9")
        self.assertEqual((status, errors), (statuses.SUCCESS, ""))
        self.assertIn("With the rows below: Score 93.75 %", out)

    def test_words_that_are_refused(self) -> None:
        for words in (["--seconds", "0"], ["--seconds", "x"], ["--rounds", "0"], ["--rounds", "1", "--seconds", "1"]):
            self.assertEqual(self.suggest(*words)[0], statuses.WORDS, words)
