"""Mutants that are proved equivalent: in a check, on a page, in files, in a class; where both programs disagree."""

import csv
import json
import os
import unittest
import xml.etree.ElementTree as xml
from pathlib import Path
from unittest import mock

from proved import EQUIVALENTS, MOTHRA, mutants, said
from room import Room
from mutants import statuses
from mutants.comparisons.comparing import compared
from mutants.comparisons.reading import read_state
from mutants.comparisons.summary import comparison_text
from mutants.declarations import proving
from mutants.declarations.proofs import proofs_of
from mutants.declarations.proving import Prover
from mutants.program import finding, unproved
from mutants.texts.jobs import Job
from running import Ended, has, refuses, run
from schemas import report_faults
from tags import Tags

# That 7 is set is not read, so SDL 1 is equivalent; SDL 2 is killed where N is not 7.
SURE = "C     K BECOMES N.\n      SUBROUTINE SURE(N,K)\n      K=7\n      K=N\n      END\n"
EQUIVALENT = "proved equivalent"
# It takes three steps. Without the RETURN, SDL 3, the END is one more.
SPARE = SURE.replace("      END", "      RETURN\n      END")
ONE_MORE = "proved equivalent with 1 step to spare"
# It takes as many steps as N has, and more.
LOOP = SPARE.replace("      RETURN", "      DO 10 I=1,N\n   10 CONTINUE\n      RETURN")
UNREACHED = "      SUBROUTINE S(N,K)\n      K=N\n      RETURN\n      K=7\n      END\n"
# SDL 2 is declared by a mistake.
BOTH = "mutant,before,after,reason\nSDL 1,K=7,CONTINUE,it is set again\nSDL 2,K=N,CONTINUE,a mistake\n"
MISTAKE = BOTH.replace("SDL 1,K=7,CONTINUE,it is set again\n", "")
# What a prover says that is none.
WRONG = "{} SDL 2 2 LINE 4 CONTINUE\nPROVED 1 OF 2\n"
NOT_ASKED = "Which mutants can be proved equivalent was not asked: "


class Proving(Room):
    def setUp(self) -> None:
        super().setUp()
        self.program = self.program.rename(self.folder / "sure.f")
        self.program.write_text(SURE)
        self.put("tests.csv", "1,0\n")

    def asked(self, *words: object, proofs: object = EQUIVALENTS, ops: str = "SDL") -> Ended:
        return self.check(*words, proofs=proofs, ops=ops)

    def told(self, *words: object, proofs: object = EQUIVALENTS, ops: str = "SDL") -> str:
        status, out, errors = self.asked("--no-page", *words, proofs=proofs, ops=ops)
        self.assertEqual((status, errors), (0, ""))
        return out

    def saying(self, text: str, status: int = 0) -> Path:
        """In the place of equivalents: a program that says this of each job."""
        return self.put_program(f"saying{hash(text)}", f"#!/bin/sh\ncat > /dev/null\nprintf '{text}'\nexit {status}\n")


class Checks(Proving):
    def test_the_score_is_told_with_and_without_them(self) -> None:
        out = self.told()
        has(self, out, "\nScore 100.00 %: 1 of 1 mutant killed, not counting 1 proved equivalent, ")
        has(self, out, "\nWithout the proofs it is 50.00 %: 1 of 2 mutants killed")
        has(self, out, "\nOf 2 mutants: 1 killed, 1 proved equivalent, 0 undecided.\n")
        has(self, out, "No mutant survives that is not declared or proved equivalent.\n")
        has(self, out, "\n1 mutant proved equivalent (--show-proved tells it).\n")
        self.assertNotIn("SDL 1 ", out)
        told = f"  SDL 1     line 3: [K=7 -> CONTINUE]: {EQUIVALENT}\n"
        has(self, self.told("--show-proved"), f"\n1 mutant proved equivalent:\n{told}")
        out = self.told("--lines", "4")
        has(self, out, "\nOf 1 mutant: 1 killed, 0 proved equivalent, 0 undecided.\n")
        self.assertEqual(out.count("proved"), 1)

    def test_without_the_program_all_is_as_before_and_this_is_told_once(self) -> None:
        without = self.check("--no-page", ops="SDL")[1]
        self.assertNotIn("undecided", without)
        self.assertTrue(without.endswith(f"{NOT_ASKED}--no-proofs was given.\n"))
        gone = {"EQUIVALENTS": "", "XDG_CACHE_HOME": str(self.folder), "PATH": ""}
        with mock.patch.dict(os.environ, gone), mock.patch.object(finding, "BUILT_EQUIVALENTS", self.folder / "gone"):
            words = ["--mothra", MOTHRA, "--all", "--no-page", "--ops", "SDL", self.program, self.tests]
            out = run("check", *words)[1]
        self.assertEqual(out, without.replace("--no-proofs was given", "the program equivalents is not found"))
        self.put("mutants.ini", "[mutants]\nno-proofs = yes\n")
        self.assertIn(f"{NOT_ASKED}--no-proofs was given.\nOptions are from ", self.told())

    def test_a_job_that_is_refused_has_no_proofs_and_words_that_are_refused_end_the_check(self) -> None:
        self.assertIn(f"{NOT_ASKED}equivalents answers FAULT O1.\n", self.told(proofs=self.saying("FAULT O1\n", 1)))
        ended = self.asked("--no-page", proofs=self.saying("BAD OPERATOR LIST\n", 2))
        self.assertEqual((ended[0], ended[2]), (statuses.WORDS, "mutants check: equivalents: BAD OPERATOR LIST\n"))
        ended = self.asked("--no-page", proofs=self.saying("neither this nor that\n"))
        refuses(self, ended, "mutants check: equivalents: the proofs are cut short")

    def test_that_some_were_not_finished_is_told(self) -> None:
        left = self.saying("EQUIVALENT SDL 1 1 LINE 3 CONTINUE\nPROVED 1 OF 2, 1 NOT FINISHED\n")
        told = "\nThe program equivalents stopped at its bound of work for 1 mutant.\n"
        has(self, self.told(proofs=left), "not counting 1 proved equivalent", told)
        self.assertNotIn("bound of work", self.told())

    def test_those_of_another_build_are_refused(self) -> None:
        other = self.saying("EQUIVALENT SDL 1 1 LINE 4 K=I\nPROVED 1 OF 7\n")
        told = "equivalents names SDL 1", "build both programs of the same sources"
        refuses(self, self.asked("--no-page", proofs=other), *told)

    def test_a_program_with_a_fault_is_told_by_mothra(self) -> None:
        self.program.write_text(SURE.replace("K=7", "CALL X"))
        refuses(self, self.asked("--no-page"), "FAULT S2 3")

    def test_lines_that_no_test_can_come_to(self) -> None:
        self.program.write_text(UNREACHED)
        self.put("tests.csv", "")
        has(self, self.told(ops="SAN"), "\nNo test comes to lines 2 and 3.\nNo test can come to line 4.\n")

    def test_what_a_person_declares_stands_apart(self) -> None:
        names = self.put("names.csv", MISTAKE)
        self.put("tests.csv", "7,0\n")
        out = self.told("--equivalent", names, ops="SAN,SDL")
        has(self, out, "2 of 2 mutants killed, not counting 1 declared and 1 proved equivalent")
        has(self, out, "\nWithout the proofs it is 66.66 %", "\n1 mutant declared equivalent:\n  SDL 2 ")
        has(self, out, "a mistake\n1 mutant proved equivalent (--show-proved tells it).\n")

    def test_one_that_is_declared_and_proved_is_of_the_person(self) -> None:
        out = self.told("--equivalent", self.put("names.csv", BOTH))
        has(self, out, "WRONGLY DECLARED EQUIVALENT: SDL 2. A test kills it.\n")
        has(self, out, "Score 100.00 %: 1 of 1 mutant killed, not counting 1 declared equivalent, ")
        has(self, out, ": it is set again\n")
        has(self, out, "Of the declared mutants 1 is proved too, and need not be declared.\n")
        self.assertNotIn("Without the proofs", out)

    def test_one_that_is_killed_is_told_as_what_cannot_be(self) -> None:
        out = self.told(proofs=self.saying(WRONG.format("EQUIVALENT")))
        has(self, out, "\nPROVED, AND YET KILLED: SDL 2. The programs mothra and equivalents do not agree")
        self.assertNotIn("WRONGLY", out)

    def test_a_score_that_is_asked_for_is_the_one_with_them(self) -> None:
        self.assertEqual(self.asked("--no-page", "--fail-under", "100")[0], statuses.SUCCESS)
        self.assertEqual(self.asked("--no-page", "--fail-under", "100", "--no-proofs")[0], statuses.BELOW)

    def test_an_unproved_build_is_told(self) -> None:
        kept = self.folder / "mutants" / "unproved-equivalents"
        kept.parent.mkdir()
        kept.symlink_to(EQUIVALENTS)
        with mock.patch.dict(os.environ, {"XDG_CACHE_HOME": str(self.folder)}):
            status, out, errors = self.asked(proofs=kept)
        said = unproved.SAID_OF.format("equivalents")
        self.assertEqual((status, errors), (0, f"{kept}: {said}\n"))
        self.assertEqual(out.splitlines()[-1], f"What is called proved here is of {said}.")
        has(self, (self.folder / "sure.html").read_text(), f"What is called proved here is of {said}.")

    def test_a_search_does_not_look_for_them(self) -> None:
        for source in (SURE, SPARE):
            self.program.write_text(source)
            words = ["--rounds", "1", self.program, self.tests]
            self.assertIn("No mutant survives", mutants("suggest", *words, proofs=EQUIVALENTS, ops="SDL")[1])


class StepsToSpare(Proving):
    """Proofs that hold for the tests as they are."""

    def setUp(self) -> None:
        super().setUp()
        self.program.write_text(SPARE)

    def test_the_limit_on_steps_is_handed_over_where_there_is_one(self) -> None:
        log, limit = self.put("log", ""), ["--steps", "500"]
        spy = self.put_program("spy", f'#!/bin/sh\necho "$*" >> {log}\necho FAULT O1\nexit 1\n')
        both = [self.program, self.tests]
        for tool, more in (("check", ["--no-page"]), ("page", []), ("suggest", ["--rounds", "1"])):
            self.assertEqual(mutants(tool, *more, *both, proofs=spy, ops="SDL")[0], 0)
            self.assertEqual(mutants(tool, *more, *limit, *both, proofs=spy, ops="SDL")[0], 0)
        self.put("mutants.ini", "[mutants]\nsteps = 300\n")
        self.assertEqual(mutants("check", "--no-page", *both, proofs=spy, ops="SDL")[0], 0)
        self.assertEqual(mutants("declare", self.program, "SDL 1", "--reason", "why", proofs=spy)[0], 0)
        asked = ["--ops SDL", "--ops SDL --steps 500"] * 2
        asked += ["--ops SDL --rows 4", "--ops SDL --steps 500 --rows 4", "--ops SDL --steps 300", "--ops SDL"]
        self.assertEqual(log.read_text().split("\n")[:-1], asked)

    def test_they_are_counted_apart(self) -> None:
        out = self.told()
        has(self, out, "not counting 2 proved equivalent", "\nWithout the proofs it is ")
        has(self, out, "\n2 mutants proved equivalent, 1 of them with steps to spare (--show-proved tells each).\n")
        out = self.told("--lines", "5")
        has(self, out, "\n1 mutant proved equivalent, with steps to spare (--show-proved tells it).\n")
        self.assertNotIn("to spare", self.told("--lines", "3-4"))
        out = self.told("--show-proved")
        has(self, out, "\n2 mutants proved equivalent, 1 of them with steps to spare:\n", ONE_MORE, f"{EQUIVALENT}\n")

    def test_they_are_asked_of_these_tests_and_this_limit(self) -> None:
        self.assertIn("2 proved equivalent", self.told("--steps", "4"))
        self.assertIn("not counting 1 proved equivalent", self.told("--steps", "3"))

    def test_each_batch_of_a_long_suite_has_to_leave_the_room(self) -> None:
        short, long = [[1, 0]] * 300, [100, 0]
        for suite, spares in ((short, [0, 1]), ([*short, long], [0]), ([long, *short], [0])):
            found = Prover(EQUIVALENTS).proved(["--ops", "SDL", "--steps", "60"], Job(LOOP, suite)).proofs
            self.assertEqual([proof.spare for proof in found], spares)

    def test_other_batches_are_asked_only_where_it_matters(self) -> None:
        for source, wanted in ((SURE, 1), (SPARE, 3)):
            with mock.patch.object(proving, "plain_answer", wraps=proving.plain_answer) as asked:
                Prover(EQUIVALENTS, anew=True).proved(["--ops", "SDL"], Job(source, [[1, 0]] * 600))
            self.assertEqual(asked.call_count, wanted)

    def test_a_list_that_is_thinned(self) -> None:
        found = Prover(EQUIVALENTS).proved(["--ops", "SDL", "--every", "2"], Job(SPARE, []))
        self.assertEqual([proof.mutant[:3] for proof in found.proofs], [("SDL", 1, 1), ("SDL", 2, 3)])
        # A job names a mutant by its number in the whole list.
        self.assertEqual(proofs_of(found).names, ["SDL 1", "SDL 3"])

    def test_a_declared_one_is_not_called_needless(self) -> None:
        names = self.put("names.csv", "mutant,before,after,reason\nSDL 3,RETURN,CONTINUE,the end is there\n")
        self.assertNotIn("need not be declared", self.told("--equivalent", names))

    def test_the_page_says_what_is_promised_of_them(self) -> None:
        self.asked()
        page = (self.folder / "sure.html").read_text()
        tags = Tags(page)
        self.assertEqual((tags.open, tags.wrong), ([], []))
        has(self, page, "<summary>2 mutants proved equivalent, 1 of them with steps to spare</summary>")
        has(self, page, "this is promised of the tests as they are", ONE_MORE)
        self.asked("--lines", "3-4")
        self.assertNotIn("to spare", (self.folder / "sure.html").read_text())

    def test_other_programs_are_told_the_number_too(self) -> None:
        paths = [self.folder / name for name in ("m.json", "m.csv")]
        self.told("--json", paths[0], "--csv", paths[1])
        report = json.loads(paths[0].read_text())
        self.assertEqual((report_faults(report), report["config"]["proved"]), ([], ["SDL 1", "SDL 3"]))
        reasons = {each["id"]: each.get("statusReason") for each in report["files"][str(self.program)]["mutants"]}
        self.assertEqual(reasons["SDL 3"], f"declared equivalent: {ONE_MORE}")
        with open(paths[1], newline="") as file:
            rows = {row["mutant"]: (row["declared"], row["proof"]) for row in csv.DictReader(file)}
        proved = [("proved", "equivalent"), ("no", ""), ("proved", "equivalent with 1 step to spare")]
        self.assertEqual(rows, dict(zip(("SDL 1", "SDL 2", "SDL 3"), proved)))

    def test_a_comparison_takes_them_as_proofs_of_their_state(self) -> None:
        paths = [self.folder / name for name in ("old.json", "new.json")]
        self.told("--json", paths[0], "--no-proofs")
        self.told("--json", paths[1])
        for told in ("since then", "no more"):
            text = comparison_text(compared(*map(read_state, paths)), *paths)
            self.assertIn(f"\nProved equivalent {told}: 2 mutants.\n", text)
            paths.reverse()

    def test_a_search_tells_which_of_them_a_row_kills(self) -> None:
        self.put("tests.csv", "7,0\n")
        wrong = self.saying(WRONG.format("SPARE 2"))
        # A row that kills N=7 in the place of K=7 kills SDL 2 too.
        words = ["--rounds", "1", "--ops", "SDL,SVR", self.program, self.tests]
        status, out, _ = mutants("suggest", *words, proofs=wrong)
        self.assertEqual(status, 0)
        has(self, out, "\nSDL 2 is proved equivalent for the tests as they are, with steps to spare. A row below kills")
        self.assertNotIn("PROVED", out)


class Pages(Proving):
    def page(self, *words: object, proofs: object = EQUIVALENTS, ops: str = "SDL") -> str:
        status, page, errors = mutants("page", *words, proofs=proofs, ops=ops)
        self.assertEqual((status, errors), (0, ""))
        tags = Tags(page)
        self.assertEqual((tags.open, tags.wrong), ([], []))
        return page

    def test_they_are_folded_in_a_part_of_their_own(self) -> None:
        page = self.page(self.program, self.tests)
        has(self, page, '<h2 id="proved">Proved equivalent</h2>', "<summary>1 mutant proved equivalent</summary>")
        has(self, page, EQUIVALENT, "1 of 1 mutant killed, not counting 1 proved equivalent")
        has(self, page, "<summary>1 proved equivalent</summary>")
        has(self, page, "Without the proofs the score is 50.00 %: 1 of 2 mutants killed.")
        has(self, page, "Of 2 mutants: 1 killed, 1 proved equivalent, 0 undecided.")
        self.assertNotIn('id="declared"', page)
        self.asked(ops="")
        page = self.page(self.program, self.tests, ops="")
        self.assertTrue((self.folder / "sure.html").read_text() == page, "another page")

    def test_a_page_with_none(self) -> None:
        without = self.page("--no-proofs", self.program, self.tests)
        self.assertNotIn("proved", without)
        none = self.page(self.program, self.tests, proofs=self.saying("PROVED 0 OF 2\n"))
        decided = '<p class="soft">Of 2 mutants: 1 killed, 0 proved equivalent, 1 undecided.</p>\n'
        self.assertTrue(none.replace(decided, "") == without, "another page")
        self.assertIn(decided, none)

    def test_declared_and_proved_at_once(self) -> None:
        names, tests = self.put("names.csv", MISTAKE), self.put("seven.csv", "7,0\n")
        page = self.page("--equivalent", names, self.program, tests)
        has(self, page, '<h2 id="declared">', '<h2 id="proved">', "a mistake")
        has(self, page, "not counting 1 declared and 1 proved equivalent")
        has(self, page, "<summary>1 declared equivalent</summary>", "<summary>1 proved equivalent</summary>")

    def test_a_stored_job_keeps_what_it_declares(self) -> None:
        job = self.put("job.json", json.dumps({"source": SURE, "suite": [[1, 0]], "equivalent": ["SDL 2"]}))
        both = "EQUIVALENT SDL 1 1 LINE 3 CONTINUE\n" + WRONG.format("EQUIVALENT").replace("1 OF", "2 OF")
        page = self.page(job, proofs=self.saying(both))
        has(self, page, "<b>Wrongly declared equivalent:</b> SDL 2.", "<b>Proved, and yet killed:</b> SDL 2.")
        has(self, page, "<summary>1 proved equivalent</summary>")

    def test_a_report_that_is_given_has_its_own_declarations(self) -> None:
        job = json.dumps({"source": SURE, "suite": [[1, 0]]})
        report = self.put("report", said("run", job.encode(), "--ops", "SDL"))
        self.assertNotIn("proved", self.page("--report", report, self.put("job.json", job)))


class Declares(Proving):
    def declare(self, *words: object) -> Ended:
        return mutants("declare", self.program, *words, "--reason", "why", proofs=EQUIVALENTS)

    def test_one_that_is_proved_need_not_be_declared(self) -> None:
        file = self.folder / "sure.equivalent.csv"
        told = "proved equivalent and need not be declared (--no-proofs declares"
        ended = self.declare("SDL", "1")
        left = f"{file}: 0 mutants declared, and 0 before; SDL 1 is {told} it all the same)\n"
        self.assertEqual((ended, file.exists()), ((0, left, ""), False))
        status, out, _ = self.declare("CRP 1 SDL 1 2")
        left = f"CRP 1 and SDL 1 are {told} them all the same)\n"
        self.assertEqual((status, out), (0, f"{file}: 1 mutant declared, and 0 before; {left}"))
        self.assertEqual(self.declare("SDL 1", "--no-proofs")[1], f"{file}: 1 mutant declared, and 1 before\n")
        with open(file, newline="") as rows:
            self.assertEqual([row["mutant"] for row in csv.DictReader(rows)], ["SDL 2", "SDL 1"])

    def test_of_one_with_steps_to_spare_it_is_told_that_this_is_of_the_tests(self) -> None:
        self.program.write_text(SPARE)
        of_tests = "this holds for the tests as they are, where each leaves that room under the limit on steps\n"
        status, out, _ = self.declare("SDL 3")
        self.assertEqual((status, (self.folder / "sure.equivalent.csv").exists()), (0, False))
        has(self, out, "; SDL 3 is proved equivalent and need not be declared (")
        has(self, out, f" it all the same); of SDL 3, with steps to spare, {of_tests}")
        self.assertNotIn("as they are", self.declare("SDL 1")[1])


class Exports(Proving):
    def written(self, *words: object, proofs: object = EQUIVALENTS, ops: str = "SDL") -> dict[str, Path]:
        paths = {name: self.folder / f"m.{name}" for name in ("json", "csv", "xml")}
        given = ["--json", paths["json"], "--csv", paths["csv"], "--junit", paths["xml"]]
        self.told(*given, *words, proofs=proofs, ops=ops)
        return paths

    def test_a_proved_mutant_is_no_survivor(self) -> None:
        paths = self.written()
        report = json.loads(paths["json"].read_text())
        self.assertEqual((report_faults(report), report["config"]["proved"]), ([], ["SDL 1"]))
        first = next(each for each in report["files"][str(self.program)]["mutants"] if each["id"] == "SDL 1")
        self.assertEqual((first["status"], first["statusReason"]), ("Ignored", f"declared equivalent: {EQUIVALENT}"))
        with open(paths["csv"], newline="") as file:
            rows = {row["mutant"]: (row["status"], row["declared"]) for row in csv.DictReader(file)}
        self.assertEqual(rows, {"SDL 1": ("Ignored", "proved"), "SDL 2": ("Killed", "no")})
        self.assertEqual(xml.parse(paths["xml"]).getroot()[0].get("failures"), "0")

    def test_a_comparison_counts_them_apart(self) -> None:
        without = self.written("--no-proofs")["json"].rename(self.folder / "without.json")
        found = self.written()["json"].rename(self.folder / "found.json")
        declared = self.written("--equivalent", self.put("names.csv", BOTH))["json"]
        more, less = "since then", "no more"
        for old, new, told in ((without, found, more), (found, without, less), (found, declared, less)):
            text = comparison_text(compared(read_state(old), read_state(new)), old, new)
            self.assertIn(f"\nProved equivalent {told}: 1 mutant.\n", text)
            self.assertNotIn("Declared equivalent", text)

    def test_one_that_was_killed_and_is_proved_does_not_survive_newly(self) -> None:
        old = self.written("--no-proofs", ops="SDL,SVR")["json"].rename(self.folder / "old.json")
        self.put("tests.csv", "7,0\n")
        new = self.written(proofs=self.saying(WRONG.format("EQUIVALENT")), ops="SDL,SVR")["json"]
        comparison = compared(read_state(old), read_state(new))
        self.assertNotIn("SDL", [each.mutant.op for each in comparison.newly_surviving])
        self.assertEqual([mutant.place for mutant in comparison.proved], [2])
        self.assertTrue(comparison.newly_surviving)


class Classes(Proving):
    def course(self, *words: object) -> str:
        status, out, errors = mutants("course", *words, self.folder, proofs=EQUIVALENTS, ops="SDL")
        self.assertEqual(status, 0, errors)
        return out

    def test_they_are_declared_in_the_jobs_of_a_class(self) -> None:
        self.course()
        jobs = self.folder / "out" / "jobs"
        self.assertEqual(json.loads((jobs / "tests.json").read_text())["equivalent"], ["SDL 1"])
        with open(self.folder / "out" / "course.csv", newline="") as file:
            (row,) = csv.DictReader(file)
        self.assertEqual((row["equivalent"], row["survived"], row["score"]), ("1", "0", "100.00"))
        has(self, (self.folder / "out" / "course.html").read_text(), "not counting 1 proved equivalent", "1 proved")
        has(self, (jobs / "tests.html").read_text(), '<h2 id="proved">')
        # What holds of these tests alone is declared for nobody.
        self.program.write_text(SPARE)
        self.course()
        self.assertEqual(json.loads((jobs / "tests.json").read_text())["equivalent"], ["SDL 1"])

    def test_without_proofs_this_is_told_once(self) -> None:
        self.assertEqual(self.course("--no-proofs").count(f"{NOT_ASKED}--no-proofs was given.\n"), 1)
        self.assertNotIn("equivalent", json.loads((self.folder / "out" / "jobs" / "tests.json").read_text()))


if __name__ == "__main__":
    unittest.main()
