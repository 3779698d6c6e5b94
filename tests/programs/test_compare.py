"""Two states of a program and its tests: what is matched, what is told, statuses, what is refused."""

import json
import unittest
from pathlib import Path

from proved import mutants
from mutants import statuses
from mutants.comparisons.matching import by_number
from mutants.comparisons.states import state_of_report
from mutants.texts.reports import read_report
from room import GREAT, Room
from running import LEAST, Ended, has, refuses, run

# The same statements on other lines, written in another way.
MOVED = LEAST.replace("      K=I\n", "C\nC\n      K = I\n").replace("J.LT.I", "(J.LT.I)")


class Compare(Room):
    def saved(self, name: str, rows: str, *words: object, program: str = LEAST, option: str = "--json") -> Path:
        """What a check writes of a program and of tests."""
        self.program.write_text(program)
        self.tests.write_text(rows)
        path = self.folder / name
        status, _, errors = self.check("--no-page", option, path, *words)
        self.assertEqual((status, errors), (0, ""))
        return path

    def declared(self, *names: str) -> Path:
        """A file of declarations with these mutants of the second statement."""
        texts = {"ROR 1": "IF (J.LE.I) K=J", "ROR 2": "IF (J.EQ.I) K=J", "SDL 2": "CONTINUE"}
        rows = [f"{name},IF (J.LT.I) K=J,{texts[name]}\n" for name in names]
        return self.put("names.csv", "mutant,before,after\n" + "".join(rows))

    def compare(self, *words: object) -> Ended:
        return mutants("compare", *words)


class Told(Compare):
    def test_more_tests_kill_more(self) -> None:
        old = self.saved("old.json", "1,2,0\n")
        new = self.saved("new.json", "1,2,0\n2,1,0\n", program=MOVED)
        status, out, errors = self.compare(old, new)
        self.assertEqual((status, errors), (0, ""))
        has(self, out, f"OLD  {old}: LEAST, 1 test, 50.00 %: 8 of 16 mutants killed\n")
        has(self, out, f"NEW  {new}: LEAST, 2 tests, 93.75 %: 15 of 16 mutants killed\n")
        has(self, out, "16 mutants in both, matched by the text of the statement and of the change.\n")
        has(self, out, "No mutant survives that was killed.\n\nNewly killed: 7 mutants; behind each the tests that")
        has(self, out, "\nline 6: IF (J.LT.I) K=J\n  ROR 2     IF (J[.LT. -> .EQ.]I) K=J: test 2\n")
        has(self, out, "Tests, matched by their values: 1 in both, 1 new, 0 gone, 0 with other kills than before.\n")
        self.assertTrue(out.endswith("  new        2  [2, 1, 0]: kills 12\n"), out)

    def test_what_was_killed_and_survives_has_a_status(self) -> None:
        old = self.saved("old.json", "1,2,0\n2,1,0\n")
        new = self.saved("new.json", "9,9,0\n1,2,0\n")
        status, out, _ = self.compare(old, new)
        self.assertEqual(status, statuses.NEWLY_SURVIVING)
        has(self, out, "NEWLY SURVIVING: 7 mutants; behind each the tests that killed it.\nline 4: IF (J.LT.I) K=J\n")
        has(self, out, "  SDL 2     [IF (J.LT.I) K=J -> CONTINUE]: test 2\n", "  gone       2  [2, 1, 0]: killed 12\n")
        self.assertNotIn("changed", out)

    def test_the_file_of_options_has_operators_and_a_threshold(self) -> None:
        old, new = self.saved("old.json", "1,2,0\n"), self.saved("new.json", "1,2,0\n")
        settings = "[mutants]\nops = ror\n[least]\nsource = least.f\njson = new.json\nfail-under = 60\n"
        self.put("mutants.ini", settings)
        status, out, _ = self.compare(old, new)
        self.assertEqual(status, statuses.BELOW)
        has(self, out, "LEAST, 1 test, 57.14 %: 4 of 7 mutants", "BELOW --fail-under: the score is below 60 %.\n")
        self.assertEqual(self.compare("--fail-under", "50", old, new)[0], 0)
        self.assertEqual(self.compare(new, old)[0], 0)

    def test_a_changed_program_has_new_mutants_and_others_are_gone(self) -> None:
        rows = "1,2,0\n2,1,0\n"
        old, new = self.saved("old.json", rows), self.saved("new.json", rows, program=GREAT)
        status, out, _ = self.compare(old, new)
        self.assertEqual(status, 0)
        has(self, out, "3 mutants in both", "New: 13 mutants, 12 killed; the survivors:\nline 4: IF (J.GT.I) K=J\n")
        has(self, out, "  ROR 5     IF (J[.GT. -> .GE.]I) K=J\n", "Gone: 13 mutants, 12 killed; the survivors:\n")
        has(self, out, "2 with other kills than before.", "  changed    1  [1, 2, 0]: no longer kills SDL 1\n")
        has(self, out, "  changed    2  [2, 1, 0]: kills 1 more: SDL 1\n")

    def test_declared_mutants(self) -> None:
        rows = "1,2,0\n2,1,0\n"
        plain = self.saved("plain.json", rows)
        declared = self.saved("declared.json", rows, "--equivalent", self.declared("ROR 1", "SDL 2"))
        status, out, _ = self.compare(plain, declared)
        self.assertEqual(status, 0)
        has(self, out, "100.00 %: 15 of 15 mutants killed", "Declared equivalent since then: 1 mutant.\nline 4: IF")
        has(self, self.compare(declared, plain)[1], "Declared equivalent no more: 1 mutant.\n")
        fewer = self.saved("fewer.json", "1,2,0\n", "--equivalent", self.declared("ROR 2"))
        status, out, _ = self.compare(plain, fewer)
        self.assertEqual(status, statuses.NEWLY_SURVIVING)
        has(self, out, "  ROR 2     IF (J[.LT. -> .EQ.]I) K=J: test 2, declared equivalent\n")

    def test_operators_of_one_file_alone_are_left_out(self) -> None:
        old, new = self.saved("old.json", "1,2,0\n"), self.saved("new.json", "2,1,0\n", "--ops", "ROR,SAN")
        self.saved("lines.json", "1,2,0\n", "--lines", "3")
        out = self.compare(old, new)[1]
        has(self, out, "10 mutants in both", "Compared are the mutants of ROR, SAN: the others are in one file ")
        has(self, out, "Left out of NEW: the mutants of all operators but ROR and SAN.\n")
        out = self.compare(old, self.folder / "lines.json")[1]
        has(self, out, "Left out of NEW: 13 mutants of other lines than those of --lines.\n")

    def test_other_limits_are_told(self) -> None:
        old, new = self.saved("old.json", "1,2,0\n"), self.folder / "new.json"
        text = old.read_text()
        text = text.replace('"steps": 10000', '"steps": 500').replace('"name": "mutants"', '"name": "mutants. X"')
        new.write_text(text)
        has(self, self.compare(old, new)[1], "The limit on steps was 10000, and is 500.\n", "\nX\n")


class Reports(Compare):
    def test_reports_are_matched_by_number(self) -> None:
        old = self.saved("old", "1,2,0\n2,1,0\n", option="--report")
        new = self.saved("new", "1,2,0\n", option="--report")
        status, out, _ = self.compare(old, new)
        self.assertEqual(status, statuses.NEWLY_SURVIVING)
        has(self, out, "16 mutants in both, matched by number, as reports have no texts of killed mutants.\n")
        has(self, out, "line 4:\n  ROR 2     IF (J.EQ.I) K=J: test 2\n", "  gone       2  killed 12\n")
        has(self, out, "Tests, matched by number: 1 in both, 0 new, 1 gone")

    def test_a_survivor_whose_text_no_report_has(self) -> None:
        old = self.saved("old", "1,2,0\n2,1,0\n", option="--report")
        new = self.saved("new", "1,2,0\n", "--equivalent", self.declared("ROR 2"), option="--report")
        out = self.compare(old, new)[1]
        has(self, out, "line unknown:\n  ROR 2     its text is in neither report: test 2, declared equivalent\n")

    def test_other_lists_are_refused(self) -> None:
        least = self.saved("least", "3,3,0\n", option="--report")
        great = self.saved("great", "3,3,0\n", program=GREAT, option="--report")
        refuses(self, self.compare(least, great), "not of one unit", "--jobs OLD.json NEW.json")
        great.write_text(great.read_text().replace("UNIT GREAT", "UNIT LEAST"))
        told = "the reports are not of the same mutants: ROR 1 is IF (J.LE.I) K=J, and then IF (J.LT.I) K=J"
        refuses(self, self.compare(least, great), told)
        state = state_of_report(read_report(least.read_text()))
        fewer = state._replace(verdicts=[each for each in state.verdicts if each.mutant[:2] != ("ROR", 7)])
        with self.assertRaisesRegex(ValueError, "not of the same mutants: ROR has 7, and then 6; reports have no"):
            by_number(state, fewer)

    def test_with_the_jobs_all_texts_are_known(self) -> None:
        old, new = (self.saved(name, "1,2,0\n2,1,0\n", option="--report") for name in ("old", "new"))
        first = self.put("first.json", run("job", self.program, self.tests)[1])
        new = self.saved("new", "2,1,0\n", program=MOVED, option="--report")
        second = self.put("second.json", run("job", self.program, self.tests)[1])
        status, out, errors = self.compare("--jobs", first, second, old, new)
        self.assertEqual((status, errors), (statuses.NEWLY_SURVIVING, ""))
        has(self, out, "16 mutants in both, matched by the text", "line 6: IF (J.LT.I) K=J\n", "gone       1  [1, 2")
        refuses(self, self.compare("--jobs", second, first, old, new), "tests, and the job")
        texts = self.saved("old.json", "1,2,0\n")
        refuses(self, self.compare("--jobs", first, second, texts, texts), "--jobs are of reports")


class Refused(Compare):
    def test_what_is_neither(self) -> None:
        report = self.saved("report", "1,2,0\n", option="--report")
        whole = self.saved("whole.json", "1,2,0\n")
        refuses(self, self.compare(report, whole), "a report and a file of --json", "two of a kind")
        refuses(self, self.compare(self.tests, report), f"{self.tests}: it is neither a report")
        refuses(self, self.compare(report, self.folder / "none"), "none: No such file")
        text = whole.read_text()
        config = json.loads(text)
        del config["config"]
        for wrong in (text[:500], "{}", '{"files": []}', json.dumps(config), "{" * 100_000):
            refuses(self, self.compare(whole, self.put("wrong.json", wrong)), "wrong.json: it is no whole file")
        cut = self.put("cut", report.read_text()[:-4])
        refuses(self, self.compare(cut, report), "cut: the report is cut short")
        self.assertEqual(self.compare(whole)[0], statuses.WORDS)


class Markdown(Compare):
    def test_the_same_for_a_review(self) -> None:
        old, new = self.saved("old.json", "1,2,0\n2,1,0\n"), self.saved("new.json", "1,2,0\n", program=MOVED)
        status, out, _ = self.compare("--markdown", old, new)
        self.assertEqual(status, statuses.NEWLY_SURVIVING)
        has(self, out, "### Mutants of LEAST: 93.75 % before, 50.00 % now\n\n", "| Killed | 15 | 8 |\n")
        has(self, out, "**7 mutants that were killed survive**\n\n| Mutant | Line | Change | Was killed by |\n")
        has(self, out, "| ROR 2 | 6 | `IF (J[.LT. -> .EQ.]I) K=J` | test 2 |\n")
        has(self, out, "| gone | 2 | `[2, 1, 0]` | killed 12 |\n")
        back = self.compare("--markdown", new, old)[1]
        has(self, back, "No mutant survives that was killed.\n\n**7 mutants newly killed**")
        great = self.saved("great.json", "1,2,0\n", program=GREAT)
        has(self, self.compare("--markdown", old, great)[1], "**New: 13 mutants, 10 killed; the survivors**")


if __name__ == "__main__":
    unittest.main()
