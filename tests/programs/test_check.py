"""The check of a program and its tests: what is told, which mutants are asked about, statuses, how it ends."""

import os
import sys
import unittest
from pathlib import Path
from unittest import mock

import running
from mutants import statuses
from mutants.checks import summary
from room import DECLARED, GREAT, TWO, Room, without_progress
from proved import MOTHRA, mutants
from running import LEAST, has, refuses, run

TOLD = """\
LEAST of {program}: 2 tests
The program on the tests:
    1  [1, 2, 0]  RETURNED 1 2 1
    2  [2, 1, 0]  RETURNED 2 1 1

Score 93.75 %: 15 of 16 mutants killed, of those that were asked for.
Where each mutant is left out that is killed whenever another is, it is 66.66 %: 2 of 3 mutants killed.
Left out: the mutants of all operators but ROR, RSR, SAN and SDL.

1 survivor on 1 line, each with what it changes:
line 4: IF (J.LT.I) K=J (1 of 13 survive)
  ROR 1     IF (J[.LT. -> .LE.]I) K=J

Each test kills a mutant that no other test kills.
The page: {page}
Which mutants can be proved equivalent was not asked: --no-proofs was given.
"""
CALL = "      SUBROUTINE OTHER(I,J,K)\n      CALL X\n      END\n"


class Told(Room):
    def test_the_score_the_survivors_and_where_the_page_is(self) -> None:
        page = self.folder / "least.html"
        self.assertEqual(self.check(), (0, TOLD.format(program=self.program, page=page), ""))
        has(self, page.read_text(), "15 of 16 mutants killed", "IF (J<del>.LT.</del><ins>.LE.</ins>I) K=J")
        self.assertEqual(self.names(), ["least.f", "least.html", "tests.csv"])

    def test_a_long_summary_has_its_score_at_the_end_too(self) -> None:
        for longest, times in ((1000, 1), (1, 2)):
            with mock.patch.object(summary, "LONG", longest):
                out = self.check("--no-page")[1]
            self.assertEqual(out.count("Score 93.75 %: 15 of 16 mutants killed, "), times)

    def test_the_page_is_that_of_the_job(self) -> None:
        job = self.put("job.json", run("job", self.program, self.tests)[1])
        self.check(ops="")
        page = mutants("page", job, ops="")[1]
        self.assertTrue((self.folder / "least.html").read_text() == page, "another page")

    def test_the_page_is_where_it_is_wanted(self) -> None:
        out = self.check("--page", self.folder / "other.html")[1]
        self.assertIn(f"The page: {self.folder / 'other.html'}", out)
        self.assertNotIn("page", self.check("--no-page")[1])
        self.assertEqual(self.names(), ["least.f", "other.html", "tests.csv"])

    def test_tests_that_add_nothing_and_lines_that_none_comes_to(self) -> None:
        self.put("tests.csv", "1,2,0\n2,1,0\n3,3,0\n")
        self.assertIn("Test 3 kills nothing that others do not: it may be left out.", self.check("--no-page")[1])
        self.put("tests.json", "[]")
        self.tests = self.folder / "tests.json"
        status, out, errors = self.check("--no-page", "--ops", "SAN")
        self.assertEqual((status, errors), (0, ""))
        self.assertIn("Score 0.00 %: 0 of 3 mutants killed", out)
        self.assertIn("No test comes to lines 3 and 4.", out)

    def test_a_wrong_declaration_is_told_and_an_equivalent_mutant_does_not_count(self) -> None:
        names = self.put("names.csv", DECLARED)
        status, out, errors = self.check("--no-page", "--equivalent", names)
        self.assertEqual((status, errors), (0, ""))
        killed = "  SDL 2     line 4: [IF (J.LT.I) K=J -> CONTINUE]: KILLED, a mistake\n"
        told = "  ROR 1     line 4: IF (J[.LT. -> .LE.]I) K=J: J and I are the same then\n"
        has(self, out, f"2 mutants declared equivalent:\n{killed}{told}")
        has(self, out, "WRONGLY DECLARED EQUIVALENT: SDL 2. A test kills it.\nScore 100.00 %: 15 of 15 mutants killed")
        has(self, out, "not counting 1 declared equivalent", "No mutant survives that is not declared equivalent.")

    def test_a_table_may_be_in_json(self) -> None:
        self.tests = self.put("tests.json", "[[1, 2, 0], [2, 1, 0]]")
        self.assertIn("Score 93.75 %", self.check("--no-page")[1])


class Statuses(Room):
    def test_a_score_below_what_is_asked_for(self) -> None:
        for least, status in (("93.75", 0), ("0", 0), ("93.76", statuses.BELOW), ("100 %", statuses.BELOW)):
            ended = self.check("--no-page", "--fail-under", least)
            self.assertEqual(ended[0], status, least)
            self.assertEqual("BELOW --fail-under" in ended[1], status != 0)
        self.put("tests.csv", "")
        self.assertEqual(self.check("--no-page", "--fail-under", "0.01")[0], statuses.BELOW)
        for wrong in ("101", "-1", "x", "1e1", ""):
            self.assertEqual(self.check("--no-page", f"--fail-under={wrong}")[0], statuses.WORDS, wrong)

    def test_without_a_mutant_there_is_no_score(self) -> None:
        status, out, _ = self.check("--no-page", "--fail-under", "50", "--lines", "1-2")
        self.assertEqual(status, 0)
        has(self, out, "No score: 0 of 0 mutants killed", "There is no score", "Left out: 16 mutants of other lines")


class Choices(Room):
    def test_operators_in_any_case_with_blanks(self) -> None:
        for option, ops, told in (
            ("--ops", "ror, SDL", "the mutants of all operators but ROR and SDL"),
            ("--ops", "SDL ror", "the mutants of all operators but ROR and SDL"),
        ):
            out = self.check("--no-page", option, ops)[1]
            has(self, out, "9 of 10 mutants killed, of those that were asked for.", f"Left out: {told}.")
        self.assertIn("3 of 3 mutants killed", self.check("--no-page", "--ops", "ROR,SDL", "--except", "ROR")[1])
        out = self.check("--no-page", "--except", "San,RSR")[1]
        has(self, out, ", of those that were asked for.", "Left out: the mutants of RSR and SAN.")

    def test_a_wrong_code_is_told_with_the_nearest(self) -> None:
        for option in ("--ops", "--except"):
            status, out, errors = self.check(option, "ROR,SLD")
            self.assertEqual((status, out), (statuses.WORDS, ""))
            self.assertIn("'SLD' is no code of an operator; is SDL meant, statement deletion?", errors)
        refuses(self, self.check("--ops", "ROR", "--except", "ROR"), "no operator is left")

    def test_lines(self) -> None:
        for lines, total in (("3", 3), ("4", 13), ("1-3, 5", 3), ("3-4", 16)):
            out = self.check("--no-page", "--lines", lines)[1]
            self.assertRegex(out, rf"of {total} mutants killed")
            self.assertEqual(" of other lines" in out, total != 16, lines)
        for wrong in ("", "4-3", "0", "a", "1-"):
            self.assertEqual(self.check(f"--lines={wrong}")[0], statuses.WORDS, wrong)

    def test_statements_that_another_version_has_not(self) -> None:
        old = self.put("old.f", GREAT)
        status, out, errors = self.check("--no-page", "--changed", old)
        self.assertEqual((status, errors), (0, ""))
        has(self, out, "12 of 13 mutants killed, of those that were asked for.")
        has(self, out, f"Left out: 3 mutants of statements that are the same in {old}.")
        same = self.put("same.f", "C\n" + LEAST.replace("K=I", "K = I"))
        self.assertIn("Left out: 16 mutants", self.check("--no-page", "--changed", same)[1])
        refuses(self, self.check("--changed", self.put("bad.f", CALL)), "bad.f, line 2: ", "FAULT S2 2")

    def test_the_page_says_what_was_left_out(self) -> None:
        self.check("--lines", "3")
        has(
            self,
            (self.folder / "least.html").read_text(),
            "Left out: 13 mutants of other lines",
            "3 of 3 mutants killed",
        )


class Settings(Room):
    def test_options_of_a_file_beside_the_program(self) -> None:
        self.put("mutants.ini", "[mutants]\nfail-under = 99\nops = ror sdl san\nexcept = san, rsr\npage = pages.html\n")
        status, out, _ = self.check(ops="")
        self.assertEqual(status, statuses.BELOW)
        has(self, out, "9 of 10 mutants killed", f"Options are from {self.folder / 'mutants.ini'}, too.")
        self.assertIn("pages.html", self.names())
        self.assertEqual(self.check("--fail-under", "0", "--no-page")[0], 0)
        self.assertIn("3 of 3 mutants killed", self.check("--ops", "SAN", "--no-page")[1])
        self.put("mutants.ini", "[others]\nx = 1\n[mutants]\nno-page = yes\n")
        (self.folder / "pages.html").unlink()
        self.assertEqual(self.check()[0], 0)
        self.assertEqual(self.names(), ["least.f", "mutants.ini", "tests.csv"])

    def test_a_fault_of_the_file_is_one_line(self) -> None:
        for text, told in (
            ("fail-unter = 3", "fail-unter is no option; is fail-under meant?"),
            ("ops = ROT", "is ROR meant"),
            ("no-page = 7", "--no-page is yes or no"),
            ("x", "mutants.ini"),
        ):
            self.put("mutants.ini", f"[mutants]\n{text}\n")
            refuses(self, self.check(), "mutants.ini", told)

    @unittest.skipUnless(sys.version_info >= (3, 11), "this Python has no tomllib")
    def test_toml(self) -> None:
        self.put("mutants.toml", '[mutants]\nfail-under = 99.5\nops = ["ROR", "SDL"]\nno-page = true\n')
        status, out, _ = self.check(ops="")
        self.assertEqual(status, statuses.BELOW)
        self.assertIn("9 of 10 mutants killed", out)


class Ends(Room):
    def test_what_keeps_it_from_being_made_is_one_line(self) -> None:
        for text, told in (("1,2\n", "row 1 has 2 cells, and 3 are wanted"), ("1,2,0\n1,T,0\n", "test 2: A value of")):
            self.put("tests.csv", text)
            refuses(self, self.check(), "tests.csv", told)
        self.put("tests.csv", TWO)
        refuses(self, self.check("--equivalent", self.folder / "gone.json"), "gone.json")
        for wrong in ("[1]", "{"):
            refuses(self, self.check("--equivalent", self.put("names.json", wrong)), "names.json")
        refuses(self, self.check("--page", self.folder / "none" / "x.html"), "there is no folder")
        refuses(self, self.check(program=Path("gone")), "no program gone")
        self.put("least.f", CALL)
        refuses(self, self.check(), "least.f, line 2: ", "FAULT S2 2", "CALL X")
        self.assertEqual(self.names(), ["least.f", "names.json", "tests.csv"])

    def test_a_part_that_fails_ends_it(self) -> None:
        fails = self.wrapped("fails", '[ "$1" = run ] && { echo FAULT B5 1; exit 1; }')
        names = self.put("names.csv", DECLARED)
        ended = self.check("--equivalent", names, program=fails)
        refuses(self, ended, "declared mutant ROR 1: ", "FAULT B5 1")
        dies = self.wrapped("dies", '[ "$1" = run ] && kill -9 $$')
        refuses(self, self.check(program=dies), "mothra run: status -9")

    def test_a_program_that_ends_otherwise_on_a_test_is_refused_before_mutants_are_run(self) -> None:
        over = "      SUBROUTINE OVER(I,J,K)\n      K=I+J\n      END\n"
        self.program.write_text(over)
        self.put("tests.csv", "1,2,0\n2147483647,1,0\n")
        without_run = self.wrapped("without_run", '[ "$1" = run ] && exit 9')
        told = "tests.csv: test 2: the program itself ends as OVERFLOW on [2147483647, 1, 0]; it has to return or stop"
        refuses(self, self.check(program=without_run), told)

    def test_ctrl_c_leaves_nothing_behind(self) -> None:
        slow = self.wrapped("slow", '[ "$1" = run ] && { echo $$ > pid; touch begun; exec sleep 20; }')
        before = self.names()
        words = ["--mothra", slow, "--no-proofs", self.program, self.tests]
        status, errors = running.interrupted(str(self.folder), "check", *words)
        self.assertEqual((status, without_progress(errors)), (statuses.INTERRUPTED, "\n"))
        with self.assertRaises(ProcessLookupError):
            os.kill(int((self.folder / "pid").read_text()), 0)
        self.assertEqual(self.names(), sorted([*before, "begun", "pid"]))

    def test_a_closed_pipe_ends_it_without_more(self) -> None:
        words = ["--mothra", MOTHRA, "--no-proofs", "--no-page", self.program, self.tests]
        self.assertEqual(without_progress(running.with_closed_pipe("check", *words)), "")


if __name__ == "__main__":
    unittest.main()
