"""The subcommand declare, and what is done with the file that it writes."""

import json
import unittest

from proved import MOTHRA, mutants, said
from room import GREAT, Room
from mutants.declarations.entries import COLUMNS, Entry, entries_text
from mutants.declarations.said import Said
from mutants.jobs.making import made_of, meant_for
from mutants.pages.report import Analysed, report_page
from mutants.texts.jobs import read_job
from mutants.texts.lists import read_list
from mutants.texts.prints import read_print
from mutants.texts.reports import read_report
from running import LEAST, Ended, has, refuses, run
from tags import Tags


class Declaring(Room):
    """The file of declarations is still to be made."""

    def setUp(self) -> None:
        super().setUp()
        self.file = self.folder / "least.equivalent.csv"

    def declare(self, *words: object) -> Ended:
        return mutants("declare", self.program, *words)

    def test_a_unit_that_is_picked_has_a_file_of_its_own(self) -> None:
        self.program.write_text(LEAST + GREAT)
        own = self.file.with_name("least.great.equivalent.csv")
        ended = self.declare("SDL", "1", "--unit", "GREAT", "--reason", "none")
        self.assertEqual(ended, (0, f"{own}: 1 mutant declared, and 0 before\n", ""))
        job = json.loads(mutants("job", "--unit", "great", self.program)[1])
        self.assertEqual(job["equivalent"], ["SDL 1"])
        self.assertNotIn("equivalent", mutants("job", "--unit", "LEAST", self.program)[1])

    def test_an_entry_has_its_texts_and_its_reason(self) -> None:
        ended = self.declare("ror", "1", "--reason", "J and I are the same then")
        self.assertEqual(ended, (0, f"{self.file}: 1 mutant declared, and 0 before\n", ""))
        self.declare("SDL", "1", "--reason", "wrong")
        rows = ["ROR 1,IF (J.LT.I) K=J,IF (J.LE.I) K=J,J and I are the same then,", "SDL 1,K=I,CONTINUE,wrong,"]
        self.assertEqual(self.file.read_text().splitlines(), [",".join(COLUMNS), *rows])
        refuses(self, self.declare("ROR 1", "--reason", "again"), "ROR 1 is declared already")
        refuses(self, self.declare("ROR 8", "--reason", "none"), "there is no ROR 8: ROR has 7 mutants")
        refuses(self, self.declare("ROR 2"), "--reason")
        refuses(self, self.declare("ROR 2", "--renew"), "--renew alone")
        self.assert_page_has_them()

    def assert_page_has_them(self) -> None:
        status, page, errors = mutants("page", self.program, self.tests)
        self.assertEqual((status, errors), (0, ""))
        has(self, page, "J and I are the same then", "Killed by test 1.", '<h2 id="declared">Declared equivalent</h2>')
        has(self, page, "<b>Wrongly declared equivalent:</b> SDL 1.", "100.00 %")
        tags = Tags(page)
        self.assertEqual((tags.open, tags.wrong), ([], []))
        job = json.loads(mutants("job", self.program, self.tests)[1])
        self.assertEqual(job["equivalent"], ["ROR 1", "SDL 1"])
        self.assertNotIn("equivalent", mutants("job", "--undeclared", self.program, self.tests)[1])

    def test_what_does_not_stand_there_any_more_is_told_and_not_declared(self) -> None:
        self.file.write_text(
            entries_text([Entry("ROR", 1, "IF (J.LT.I) K=J", "IF (J.LE.I) K=J"), Entry("SDL", 5, "K=I", "CONTINUE")])
        )
        self.program.write_text(GREAT)
        status, out, errors = mutants("job", self.program, self.tests)
        self.assertEqual((status, json.loads(out)["equivalent"]), (0, ["SDL 1"]))
        self.assertIn(
            f"warning: {self.file}: 1 declared mutant found by the texts under a new number: SDL 5 is now SDL 1", errors
        )
        self.assertIn("ROR 1 is not declared: no statement is IF (J.LT.I) K=J any more", errors)
        status, out, errors = self.declare("--renew")
        self.assertEqual((status, out), (0, f"{self.file}: 1 of 2 entries with a new number\n"))
        self.assertIn("ROR 1: no statement is", errors)
        self.assertIn("\nSDL 1,K=I,CONTINUE,,\n", self.file.read_text())

    def test_more_tests_than_a_job_takes_do_not_matter_to_declarations(self) -> None:
        self.declare("ROR", "1", "--reason", "none")
        self.tests.write_text("1,2,0\n" * 300)
        made = made_of(self.program, self.tests)
        meant = meant_for(made, self.program, None, lambda: MOTHRA)
        self.assertEqual((len(made.suite), meant.names, meant.reasons), (300, ["ROR 1"], {"ROR 1": "none"}))

    def test_a_bare_list_is_taken_with_a_warning_and_without_a_program(self) -> None:
        bare = self.file.with_suffix(".json")
        bare.write_text('["ROR 1"]')
        status, out, errors = run("job", "--mothra", "there-is-none", self.program, self.tests)
        self.assertEqual((status, json.loads(out)["equivalent"]), (0, ["ROR 1"]))
        self.assertIn(f"warning: the bare numbers of {bare} are not tied to the program", errors)

    def test_the_reasons_of_a_stored_job(self) -> None:
        job = self.file.with_name("job.json")
        self.declare("ROR 1", "--reason", "they are the same")
        job.write_text(mutants("job", self.program, self.tests)[1])
        page = mutants("page", "--equivalent", self.file, job)[1]
        has(self, page, "they are the same")
        has(self, mutants("page", job)[1], "no reason is given")
        refuses(self, mutants("page", "--unit", "A", job), "is taken for a job")

    def test_the_source_is_shown_as_its_file_has_it_and_what_is_told_stands_at_the_top(self) -> None:
        job = json.dumps({"source": LEAST, "suite": [[1, 2, 0]], "equivalent": ["ROR 1"]}).encode()
        printed, listed, report = (said(*words) for words in (("print", job), ("list", job), ("run", job)))
        shown = Said(LEAST.replace("      K=I", "      k  = i"), {"ROR 1": "the same"}, ["not <declared>"])
        analysed = Analysed(read_job(job), read_print(printed), read_list(listed)[1], read_report(report))
        page = report_page(analysed, said=shown)
        has(self, page, "k  = i</span>", '<p class="warn">not &lt;declared&gt;</p>', "the same</span>")
        self.assertLess(page.index("not &lt;declared"), page.index('<h2 id="program">'))
        self.assertNotIn("      K=I</span>", page)


if __name__ == "__main__":
    unittest.main()
