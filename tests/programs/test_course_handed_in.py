"""What is handed in for a class: nothing of it stops the class, or changes what others have."""

import os
import unittest
from pathlib import Path
from unittest import mock

from test_course import SUITES, Class
from mutants.program import many
from running import LEAST, has

DECLARED = "mutant,before,after,reason\nROR 1,IF (J.LT.I) K=J,IF (J.LE.I) K=J,the same\n"
FACTS = '[[1, 2, 0], [2, 1, 0]]'


class HandedIn(Class):
    def setUp(self) -> None:
        super().setUp()
        self.hand_in({"least.f": LEAST, "anna.json": FACTS})
        self.suites = self.folder / "suites"

    def assert_anna_stands(self) -> dict[str, dict[str, str]]:
        """The rows of the table, in which the suite of Anna has what it has alone."""
        rows = self.table()
        self.assertEqual((rows["anna"]["tests"], rows["anna"]["score"]), ("2", "93.75"))
        return rows

    def test_what_a_table_expects_is_looked_at(self) -> None:
        self.hand_in({"bert.csv": "I,J,K,expect\n1,2,0,K=1\n2,1,0,K=2\n", "carl.csv": "I,J,K,expect\n1,2,0,X=1\n"})
        self.assertEqual(self.course()[0], 0)
        rows = self.assert_anna_stands()
        self.assertEqual([rows[name]["unexpected"] for name in ("anna", "bert", "carl")], ["0", "1", "0"])
        self.assertIn("X is no dummy argument", rows["carl"]["told"])
        has(self, self.page(), "what is expected of it by bert (1 test).", "carl: what is expected of test 1")
        has(self, (self.folder / "out" / "jobs" / "bert.html").read_text(), "expected K=2", "Test 2: the program does")

    def test_a_suite_of_any_length(self) -> None:
        self.hand_in({"bert.csv": "".join(f"{i},{i + 1},0\n" for i in range(300)) + "2,1,0\n"})
        self.assertEqual(self.course()[0], 0)
        row = self.table()["bert"]
        self.assertEqual((row["tests"], row["score"]), ("301", "93.75"))

    def test_each_test_is_asked_once(self) -> None:
        self.hand_in({"bert.csv": "2,1,0\n3,3,0\n3,3,0\n"})
        with mock.patch.object(many.Calls, "answer", autospec=True, side_effect=many.Calls.answer) as answer:
            self.course()
        self.assertEqual(sum(call.args[1][0] == "exec" for call in answer.call_args_list), 3)
        self.assertEqual((self.folder / "out" / "jobs" / "bert.outcomes").read_text().count("RETURNED 3 3 3"), 2)

    def test_faults_are_told_in_words(self) -> None:
        self.hand_in({"bert.csv": "\n1,2,0\n1,T,0\n", "carl.csv": "1,x,0\n"})
        self.course()
        rows = self.assert_anna_stands()
        self.assertEqual(rows["bert"]["fault"], "B3")
        told = "row 3: A test does not fit the dummy arguments of the subroutine. (FAULT B3 2)"
        self.assertEqual(rows["bert"]["told"], told)
        self.assertIn("row 1, column 2 (J): 'x' is no number", rows["carl"]["told"])

    def test_one_file_stops_nothing(self) -> None:
        Path(os.fsdecode(os.fsencode(self.suites) + b"/m\xfcller.json")).write_text(FACTS)
        with open(self.suites / "large.csv", "wb") as large:
            large.truncate(1 << 40)
        self.hand_in({"anna.csv": "1,2,0\n", "two.json": "[" * 100_000, "zoe.csv": "\0"})
        status, _, errors = self.course()
        self.assertEqual(status, 1, errors)
        rows = self.table()
        self.assertEqual((rows["anna.json"]["score"], rows["anna.csv"]["tests"]), ("93.75", "1"))
        self.assertEqual(rows["m?ller"]["score"], "93.75")
        self.assertEqual(rows["large"]["told"], "large.csv: the file has more than 67,108,864 bytes")
        has(self, self.page(), '<a href="jobs/m%FCller.html">m\ufffdller</a>')

    def test_no_student_declares_for_others_or_sets_options(self) -> None:
        for name in ("equivalent.csv", "least.equivalent.csv", "mutants.ini"):
            (self.suites / name).write_text(DECLARED if name.endswith(".csv") else "[mutants]\nunit = X\n")
        errors = self.course()[2]
        self.assert_anna_stands()
        for name in ("equivalent.csv", "least.equivalent.csv", "mutants.ini"):
            told = f"{self.suites / name} is not read, since suites are handed in there: put it into {self.folder}"
            self.assertIn(told, errors)
        self.hand_in({"equivalent.csv": DECLARED})
        self.course()
        self.assertEqual(self.table()["anna"]["score"], "100.00")

    def test_without_a_folder_of_their_own_nothing_is_declared(self) -> None:
        for name, text in (("bert.json", FACTS), ("equivalent.csv", DECLARED), ("least.f", LEAST)):
            (self.folder / name).write_text(text)
        (self.suites / "anna.json").rename(self.folder / "anna.json")
        self.suites.rmdir()
        errors = self.course()[2]
        self.assertIn(f"put the suites into {self.suites}", errors)
        self.assert_anna_stands()

    def test_a_link_is_refused_and_shows_nothing(self) -> None:
        secret = self.folder.parent / "secret.csv"
        secret.write_text("mine\n")
        (self.suites / "bert.csv").symlink_to(secret)
        self.course()
        self.assertIn("it is a link", self.assert_anna_stands()["bert"]["told"])
        for path in self.folder.rglob("*"):
            if path.is_file() and not path.is_symlink():
                self.assertNotIn("mine", path.read_text())

    def test_no_cell_is_a_formula(self) -> None:
        self.hand_in({"=1+1.csv": "1,2,0\n", "@x.csv": "1\n"})
        self.course()
        self.assertIn("\n'=1+1,least,", (self.folder / "out" / "course.csv").read_text())
        self.assertTrue({"'=1+1", "'@x"} <= set(self.table()))


class Again(Class):
    def test_only_what_has_changed_is_made_again(self) -> None:
        self.hand_in({"least.f": LEAST, **{name: SUITES[name] for name in ("anna.json", "bert.csv")}})
        self.course()
        jobs, out = self.folder / "out" / "jobs", self.folder / "out"
        files = [jobs / "anna.html", jobs / "bert.html", out / "course.html", out / "course.csv"]

        def changed(*words: object) -> list[str]:
            before = [path.stat().st_ino if path.exists() else 0 for path in files]
            self.course(*words)
            return [path.name for path, old in zip(files, before) if path.stat().st_ino != old]

        self.assertEqual(changed(), [])
        self.hand_in({"bert.csv": "1,2,0\n"})
        self.assertEqual(changed(), ["bert.html", "course.html", "course.csv"])
        (jobs / "anna.html").unlink()
        self.assertIn("anna.html", changed())
        self.hand_in({"bert.csv": "I,J,K,expect\n1,2,0,K=7\n"})
        self.assertIn("bert.html", changed())
        self.assertIn("anna.html", changed("--no-proofs", "--steps", "99"))


if __name__ == "__main__":
    unittest.main()
