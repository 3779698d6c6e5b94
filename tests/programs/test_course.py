"""The course: jobs of a folder, their results kept and taken up again, the table and the page."""

import csv
import os
import shutil
import subprocess
import tempfile
import unittest
from collections.abc import Mapping
from pathlib import Path

import running
from proved import OPS, mutants
from mutants import statuses
from mutants.classes.results import COLUMNS
from room import GREAT
from running import LEAST, TESTS, Folder, has, refuses

FAILED = "mutants course: 2 of 5 jobs failed: carl and dora"
SUITES = {
    "anna.json": "[[1, 2, 0], [2, 1, 0]]",
    "bert.csv": "3,3,0\n1,2,0\n",
    "carl.json": "[[1, 2]]",
    "dora.json": "[[1,",
    "emil.suite.json": "[[5, 4, 9], [2, 1, 0]]",
}


def has_parallel() -> bool:
    told = shutil.which("parallel") and subprocess.run(["parallel", "--version"], capture_output=True).stdout
    return bool(told and told.startswith(b"GNU parallel"))


class Class(Folder):
    """A class in a folder of its own."""

    def setUp(self) -> None:
        super().setUp()
        self.folder = self.folder / "class <1>"
        self.folder.mkdir()

    def hand_in(self, files: Mapping[str, str]) -> None:
        """Puts programs and what is declared of them into the folder, and suites into that of the suites."""
        (self.folder / "suites").mkdir(exist_ok=True)
        for name, text in files.items():
            is_suite = name.endswith((".csv", ".json")) and "equivalent" not in name
            (self.folder / ("suites" if is_suite else "") / name).write_text(text)

    def course(self, *words: object, ops: str = OPS) -> running.Ended:
        return mutants("course", *words, self.folder, ops=ops, path=TESTS / "bin")

    def table(self) -> dict[str, dict[str, str]]:
        with open(self.folder / "out" / "course.csv", newline="") as file:
            return {row["name"]: row for row in csv.DictReader(file)}

    def page(self) -> str:
        return (self.folder / "out" / "course.html").read_text()


class OneProgram(Class):
    """Each test begins with a copy of a class that was run once."""

    room: tempfile.TemporaryDirectory[str]
    done: Path
    ended: running.Ended

    @classmethod
    def setUpClass(cls) -> None:
        cls.room = tempfile.TemporaryDirectory()
        cls.addClassCleanup(cls.room.cleanup)
        first = cls("course")
        first.folder = cls.done = Path(cls.room.name, "class <1>")
        first.folder.mkdir()
        first.hand_in({"least.f": LEAST, **SUITES})
        cls.ended = first.course("--jobs", "2")

    def setUp(self) -> None:
        super().setUp()
        shutil.copytree(self.done, self.folder, dirs_exist_ok=True)

    def test_table_and_page(self) -> None:
        status, out, errors = self.ended
        self.assertEqual(status, 1)
        self.assertIn("3 of 5 with a report", out)
        self.assertEqual(errors.splitlines()[0], "mutants course: 2 of 5")
        self.assertEqual(errors.splitlines()[-2:], ["mutants course: 5 of 5", FAILED])
        rows = self.table()
        self.assertEqual(list(rows["anna"]), COLUMNS)
        self.assertEqual([rows[name]["score"] for name in ("anna", "bert", "emil")], ["93.75", "50.00", "75.00"])
        self.assertEqual(rows["carl"]["told"], "carl.json: row 1 has 2 cells, and 3 are wanted: I, J, K")
        self.assertEqual(rows["dora"]["fault"], "-")
        self.assertIn("dora.json", rows["dora"]["told"])
        self.assert_page_says()

    def assert_page_says(self) -> None:
        page = self.page()
        has(self, page, "<h1>class &lt;1&gt;: what the suites kill</h1>")
        has(self, page, "IF (J<del>.LT.</del><ins>.LE.</ins>I) K=J")
        has(self, page, "The smallest set that kills all 15 that the class kills has 2 tests.")
        has(self, page, '<th scope="row"><code>[2, 1, 0]</code></th><td>anna and emil</td>')
        has(self, page, '<a href="jobs/emil.html">emil</a>')
        jobs = self.folder / "out" / "jobs"
        has(
            self,
            (jobs / "emil.html").read_text(),
            "<td><code>[5, 4, 9]</code></td><td><code>RETURNED 5 4 4</code></td>",
        )
        self.assertEqual((jobs / "emil.outcomes").read_text(), "RETURNED 5 4 4\nRETURNED 2 1 1\n")
        self.assertLess(page.index("anna.html"), page.index("emil.html"))
        self.assertLess(page.index("emil.html"), page.index("bert.html"))

    def test_a_second_call_runs_nothing_and_a_changed_suite_alone(self) -> None:
        before = self.page()
        self.assertEqual(self.course()[2], f"{FAILED}\n")
        self.assertEqual(self.page(), before)
        self.hand_in({"bert.csv": "1,2,0\n"})
        self.assertEqual(self.course()[2].splitlines(), ["mutants course: 4 of 5", "mutants course: 5 of 5", FAILED])
        self.assertEqual(self.table()["bert"]["tests"], "1")
        self.assertEqual((self.folder / "out" / "jobs" / "bert.outcomes").read_text(), "RETURNED 1 2 1\n")
        self.assertEqual(self.course("--ops", "ROR")[2].splitlines()[0], "mutants course: 2 of 5")

    def test_a_result_without_its_key_is_made_again(self) -> None:
        report = self.folder / "out" / "jobs" / "anna.report"
        whole = report.read_bytes()
        (self.folder / "out" / "jobs" / "anna.key").unlink()
        report.write_bytes(whole[:50])
        self.assertEqual(self.course()[2].splitlines()[0], "mutants course: 4 of 5")
        self.assertEqual(report.read_bytes(), whole)

    def test_want_of_memory_is_tried_again(self) -> None:
        (self.folder / "out" / "jobs" / "anna.report").write_text("FAULT B1\n")
        self.assertEqual(self.course()[2].splitlines()[0], "mutants course: 4 of 5")
        self.assertEqual(self.table()["anna"]["score"], "93.75")

    def test_declared_mutants(self) -> None:
        self.hand_in({"equivalent.json": '["ROR 1"]'})
        self.course()
        row = self.table()["anna"]
        self.assertEqual((row["equivalent"], row["score"]), ("1", "100.00"))
        has(self, self.page(), "0 mutants that no suite of the class kills")
        self.hand_in({"equivalent.csv": "mutant,before,after,reason\nROR 3,IF (J.LT.I) K=J,IF (J.LE.I) K=J,the same\n"})
        self.assertIn("ROR 3 is now ROR 1", self.course()[2])
        has(self, (self.folder / "out" / "jobs" / "anna.html").read_text(), "the same</span>", "declared equivalent")
        self.assertEqual(self.table()["anna"]["score"], "100.00")
        (self.folder / "equivalent.csv").unlink()
        self.hand_in({"equivalent.json": "[1]"})
        self.course()
        self.assertIn("no list of names", self.table()["anna"]["told"])


class Cut(Class):
    def test_goes_on_where_it_was_cut(self) -> None:
        self.hand_in({"least.f": LEAST, **{f"s{n}.csv": f"{n},2,0\n" for n in range(3)}})
        os.environ["FAKE_PARALLEL_LIMIT"] = "1"
        self.addCleanup(os.environ.pop, "FAKE_PARALLEL_LIMIT")
        status, _, errors = self.course("--sshlogin", ":")
        self.assertEqual(status, 1)
        self.assertEqual(
            errors.splitlines()[-2:],
            ["mutants course: 2 jobs have no answer: parallel: cut", "mutants course: 2 of 3 jobs failed: s1 and s2"],
        )
        self.assertEqual([row["told"] for row in self.table().values()], ["", "no answer", "no answer"])
        os.environ["FAKE_PARALLEL_LIMIT"] = "9"
        status, _, errors = self.course("--sshlogin", ":")
        self.assertEqual((status, errors.splitlines()), (0, [f"mutants course: {done} of 3" for done in (1, 2, 3)]))
        self.assertEqual([row["told"] for row in self.table().values()], ["", "", ""])


class Settings(Class):
    def test_the_file_of_options_is_for_the_class_and_for_each_program(self) -> None:
        self.hand_in({"least.f": LEAST, "great.f": GREAT, "least.json": "[[1, 2, 0]]", "great.json": "[[1, 2, 0]]"})
        self.hand_in({"own.equivalent.csv": "mutant,before,after\nROR 1,IF (J.LT.I) K=J,IF (J.LE.I) K=J\n"})
        settings = "[mutants]\nops = ROR\nfail-under = 60\n[first]\nsource = least.f\n"
        for key, ended, score, told in (
            ("undeclared = yes", statuses.BELOW, "57.14", "great and least, below 60 %."),
            ("equivalent = own.equivalent.csv", statuses.BELOW, "66.66", "great, below 60 %."),
            ("unit = X", statuses.FAULT, "", "great, below 60 %."),
        ):
            (self.folder / "mutants.ini").write_text(f"{settings}{key}\n")
            status, out, _ = self.course(ops="")
            self.assertEqual((status, self.table()["least"]["score"]), (ended, score))
            has(self, out, f"BELOW --fail-under: {told}\n")
        self.assertIn("no unit has the name X", self.table()["least"]["told"])


class ManyPrograms(Class):
    def test_each_table_is_of_its_program(self) -> None:
        suite = SUITES["anna.json"]
        self.hand_in({"least.f": LEAST, "great.f": GREAT, "great-anna.json": suite, "great.json": "[]"})
        self.hand_in({"suite.csv": "2,1,0\n"})
        self.hand_in({"other-bert.json": suite, "wrong.f": "      SUBROUTINE W(I,J,K)\n      CALL X\n      END\n"})
        status, _, errors = self.course()
        self.assertEqual(status, 1)
        self.assertIn("2 of 5 jobs failed: other-bert and wrong", errors)
        rows = self.table()
        programs = [rows[name]["program"] for name in ("great", "great-anna", "least")]
        self.assertEqual(programs, ["great", "great", "least"])
        self.assertEqual((rows["great"]["tests"], rows["least"]["tests"]), ("0", "1"))
        self.assertEqual(rows["wrong"]["fault"], "S2")
        self.assertIn("there is no program of this name", rows["other-bert"]["told"])
        has(self, self.page(), '<a href="#program-1">great</a>', '<h2 id="program-1">great</h2>', "Without a program")


class Refusals(Class):
    def test_bad_input_is_one_line(self) -> None:
        refuses(self, self.course(), "there is no program")
        self.hand_in({"least.f": LEAST})
        refuses(self, self.course(), "there is no table of tests")
        self.hand_in({"a.json": "[]"})
        self.assertEqual(self.course("--ops", "XYZ")[0], statuses.WORDS)
        self.folder = self.folder / "none"
        refuses(self, self.course(), "no such folder")
        self.assertEqual(self.course("--jobs", "0")[0], statuses.WORDS)

    def test_gnu_parallel_is_needed_for_other_machines_alone(self) -> None:
        self.hand_in({"least.f": LEAST, "a.json": "[[1, 2, 0]]"})
        other = self.put_program("bin/parallel", "#!/bin/sh\necho parallel of another kind\n").parent
        refuses(self, mutants("course", "--sshlogin", "anna", self.folder, path=other), "not GNU parallel")
        self.assertEqual(mutants("course", self.folder, path=other)[0], 0)


@running.needs(has_parallel(), "GNU parallel (Debian's package parallel)")
class WithParallel(Class):
    def test_the_jobs_of_a_class(self) -> None:
        self.hand_in({"least.f": LEAST, **SUITES, **{f"s{n}.csv": f"{n},2,0\n" for n in range(3)}})
        status, out, errors = mutants("course", "--jobs", "3", "--sshlogin", ":", self.folder)
        self.assertEqual((status, errors.splitlines()[-2]), (1, "mutants course: 8 of 8"))
        self.assertEqual(self.table()["anna"]["score"], "93.75")
        self.assertEqual(self.table()["carl"]["fault"], "B3")

    def test_other_machines(self) -> None:
        self.hand_in({"least.f": LEAST, **SUITES})
        other = self.folder.parent / "other"
        other.mkdir()
        os.environ["FAKE_SSH_FOLDER"] = str(other)
        self.addCleanup(os.environ.pop, "FAKE_SSH_FOLDER")
        logins = [word for name in ("one", "two") for word in ("--sshlogin", f"{TESTS / 'bin' / 'ssh'} {name}")]
        status, out, errors = mutants("course", "--jobs", "1", *logins, self.folder)
        self.assertEqual((status, errors.splitlines()[-2]), (1, "mutants course: 5 of 5"))
        self.assertEqual([row["score"] for row in self.table().values()], ["93.75", "50.00", "", "", "75.00"])
        self.assertEqual(list(other.iterdir()), [])


if __name__ == "__main__":
    unittest.main()
