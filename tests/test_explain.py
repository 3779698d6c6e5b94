"""The explanations: every code of the program has one, and the marks stand where the fault is."""

import json
import re
import unittest
from collections.abc import Callable, Iterator, Sequence
from unittest import mock

import running
from mutants.explanations import ends
from mutants.explanations.jobs import notes_on
from mutants.explanations.marks import places, shown
from mutants.explanations.meanings import MEANINGS
from mutants.explanations.explanation import explained
from mutants.explanations.words import words_say
from mutants.program.calling import Fault

FRONT, SUM, LAST = "      SUBROUTINE ADD(I,J,K)", "      K=I+J", "      END"
CODE = r"[A-Z]\d+"
LANGUAGE = "docs/LANGUAGE.md"
JOB = {"source": f"{FRONT}\n      K=.TRUE.\n{LAST}\n", "suite": [[1, 2, 3]]}
DETAILS = ["", "line", "label", "name", "key", "test", "value", "entry", "operator", "mutant"]


def page(name: str) -> str:
    return (running.ROOT / name).read_text()


def codes_of_pages() -> set[str]:
    """All codes that the tables of faults and the sources have."""
    found = set[str]()
    for cell in re.findall(rf"^\| ({CODE}\b[^|]*) \|", page(LANGUAGE), re.M):
        found |= set(re.findall(rf"\b{CODE}\b", cell))
    found |= set(re.findall(rf'"({CODE})"', page("crates/mothra_app/src/line.rt")))
    found |= set(re.findall(rf'error\("({CODE}): ', page("crates/mothra_exchange/src/fault.rt")))
    return found


def example_of(cell: str) -> str:
    """The program of an example of the page: what stands as the second line of ADD, or as several lines there."""
    lines = re.findall(r"`([^`]*)`", cell)
    return "\n".join([FRONT, *(line if line[:1] in " \t" else statement(line) for line in lines), LAST]) + "\n"


def statement(text: str) -> str:
    label = re.match(r"(\d+) (.*)", text)
    return f"{label[1]:>5} {label[2]}" if label else f"      {text}"


def examples() -> Iterator[tuple[str, str, str]]:
    """The rows of the tables of faults whose examples are lines of a program."""
    for row in re.findall(r"^\| ([FSC]\d+) \w+ \| [^|]+ \| ([^|]+) \| `(FAULT [^`]*)` \|$", page(LANGUAGE), re.M):
        if re.fullmatch(r"(`[^`]*`(, )?)+", row[1].strip()):
            yield row


class Codes(unittest.TestCase):
    def test_each_code_of_the_program_has_a_meaning(self) -> None:
        codes = codes_of_pages()
        self.assertGreater(len(codes), 50)
        self.assertEqual(codes, set(MEANINGS))

    def test_each_meaning_is_whole(self) -> None:
        for code, meaning in MEANINGS.items():
            with self.subTest(code):
                for sentence in (meaning.says, meaning.rule, meaning.advice):
                    self.assertRegex(sentence, r"^[A-Z].*\.$|^--.*\.$")
                self.assertRegex(meaning.sections, r"^$|^(\d+(\.\d+)+(, | to )?)+$")
                self.assertIn(meaning.detail, DETAILS)
                if code[0] in "FSC" and meaning.detail:
                    self.assertTrue(meaning.sections or "limit of this program" in meaning.rule)

    def test_the_details_are_those_of_the_lines(self) -> None:
        for code, detail in re.findall(rf"`FAULT ({CODE})((?: \S+)*)`", page(LANGUAGE)):
            with self.subTest(code):
                self.assertEqual(bool(detail), bool(MEANINGS[code].detail))


class Marks(unittest.TestCase):
    def test_the_examples_of_the_page_have_marks(self) -> None:
        rows = list(examples())
        self.assertGreater(len(rows), 15)
        for code, cell, line in rows:
            with self.subTest(line):
                source, detail = example_of(cell), line.split(" ")[2:]
                marks, _ = places(code, MEANINGS[code].detail, "".join(detail), source)
                self.assertTrue(marks or code == "C14")
                under = shown(source, marks)
                self.assertEqual(sum("^" in text for text in under), len({mark.line for mark in marks}))

    def marks(self, fault: str, *lines: str) -> tuple[list[str], list[str]]:
        source = "\n".join([FRONT, *lines, LAST, ""])
        code, _, detail = fault.partition(" ")
        marks, notes = places(code, MEANINGS[code].detail, detail, source)
        text = source.split("\n")
        return [text[mark.line - 1][mark.first - 1 : mark.last] for mark in marks], notes

    def test_the_marked_text(self) -> None:
        for fault, lines, wanted in (
            ("F3 2", ["      K=\u00e9"], ["\u00e9"]), ("F4 2", ["\tK=I"], ["\t"]), ("F5 2", ["  X 0 K=I+J"], ["  X 0"]),
            ("F6 2", ["     &K=1"], ["&"]), ("S2 2", ["      CALL SUB(K)"], ["CALL SUB(K)"]),
            ("S3 2", ["      K = ABC DEFG + 1"], ["ABC DEFG"]), ("S3 2", ["      INTEGER ABCDEFG"], ["ABCDEFG"]),
            ("S3 2", ["      IF (K.EQ.1) ABCDEFG=1"], ["ABCDEFG"]), ("S4 2", ["      K=M(2147483648)"], ["2147483648"]),
            ("S4 2", ["      GO TO 0"], ["0"]), ("S5 2", ["      K=" + "(" * 41 + "I"], ["("]),
            ("S5 2", ["      K=)" + "(" * 41], ["("]),
            ("C2 X", ["      IF (I.GT.X) X=1"], ["X"]), ("C2 E", ["      IF (I.EQ.1) E=1"], ["E"]),
            ("C3 L", ["      INTEGER L", "      DIMENSION L(2)", SUM], ["L", "L"]),
            ("C6 10", ["   10 K=I", "   10 K=J"], ["   10", "   10"]),
            ("C7 2", ["      GO TO (10,20),I", "   10 K=I"], ["20"]),
            ("C7 2", ["      IF (I-J) 10,10,30", "   10 K=I"], ["30"]),
            ("C9 2", ["      IF (I.EQ.1) GO TO 10", "      DO 10 L=1,3", "   10 K=L"], ["10", "   10"]),
            ("C10 2", ["      DO 10,L=1,3", "   10 RETURN"], ["10", "   10"]),
            ("C12 3", ["      DO 10 L=1,3", "   10 L=2"], ["DO 10 L=1,3", "L=2"]),
            ("C4 2", ["      K=", "     &  .TRUE."], ["K=", ".TRUE."]),
        ):  # fmt: skip
            with self.subTest(fault + lines[0] if lines else fault):
                self.assertEqual(self.marks(fault, *lines)[0], wanted)

    def test_what_stands_behind_column_72_is_told(self) -> None:
        line = "      K=I" + " " * 63 + "+J"
        self.assertIn("Of line 2 all behind column 72 is not read: +J", self.marks("C4 2", line)[1])

    def test_labels_are_told(self) -> None:
        notes = self.marks("C7 2", "      GO TO 5", "   10 K=I", "   20 K=I")[1]
        self.assertEqual(notes, ["Labels stand on the statements: 10 and 20."])

    def test_marks_stand_under_the_text(self) -> None:
        source = "\n".join([FRONT, "      X=I", LAST])
        marks, _ = places("C2", "name", "X", source)
        self.assertEqual(shown(source, marks), ["     2 |       X=I", "       |       ^"])


class Notes(unittest.TestCase):
    def notes(self, fault: str, words: Sequence[str] = (), **job: object) -> str:
        code, _, detail = fault.partition(" ")
        text = json.dumps({"source": f"{FRONT}\n{SUM}\n{LAST}\n", **job}).encode()
        return " ".join(notes_on(code, MEANINGS[code].detail, detail, text, None, list(words)))

    def test_the_suite(self) -> None:
        self.assertIn("Value 2 is 1.5.", self.notes("J4 1", suite=[[1, 1.5, 0]]))
        notes = self.notes("B3 2", suite=[[1, 2, 3], [2, 3]])
        self.assertIn("It has 2 values; the dummy arguments are 3: I (INTEGER)", notes)
        self.assertIn("Value 2 is true, for J (INTEGER).", self.notes("B3 1", suite=[[2, True, 0]]))
        self.assertIn("Value 1 is [1]", self.notes("N3 1", ["exec", "--test", "1"], suite=[[[1], 2, 0]]))
        self.assertIn("The suite has 1 test.", self.notes("J8 2", suite=[[1, 2, 3]]))
        self.assertIn("Test 1 is [1, 2, 3]: I=1, J=2, K=3.", self.notes("B4 1", suite=[[1, 2, 3]]))
        self.assertIn("Test 1 is [1, 2].", self.notes("B4 1", suite=[[1, 2]]))

    def test_keys_and_entries(self) -> None:
        self.assertIn('The key "x" is unknown.', self.notes("J3 x", x=1))
        self.assertIn("The value of suite is 7.", self.notes("J3 suite", suite=7))
        self.assertIn('Entry 1 is "ABS 01".', self.notes("J5 1", equivalent=["ABS 01"]))
        self.assertIn("Entry 1 is the same.", self.notes("B6 2", equivalent=["ABS 1", "ABS 1"]))
        self.assertIn("no operator XYZ", self.notes("B5 1", equivalent=["XYZ 1"]))

    def test_json(self) -> None:
        told = notes_on("J2", "", "", b'{"source": "",\n "suite" [1]}', None, [])
        self.assertTrue(told[0].startswith("Line 2, column 10 of the job"))
        self.assertEqual(told[2].index("^") - 2, 9)
        self.assertIn("UTF-8", notes_on("J2", "", "", b"\xff", None, [])[0])


def ends_at(step: int, outcome: str) -> Callable[..., str]:
    """In the place of mothra: a run that ends at a step."""
    return lambda program, number, words, job: outcome if int(words[1]) >= step else "STEPLIMIT"


class Ends(unittest.TestCase):
    def notes(self, step: int, outcome: str, *words: str) -> list[str]:
        job = json.dumps({"source": f"{FRONT}\n{SUM}\n{LAST}\n", "suite": [[1, 2, 3], [4, 5, 6]]}).encode()
        with mock.patch.object(ends, "asked_outcome", ends_at(step, outcome)):
            return notes_on("B4", "test", "2", job, "mothra", ["run", *words])

    def test_the_step_that_ended_the_run(self) -> None:
        for step in (1, 2, 4711, 9999, 10000):
            told = f"Step {step} ends the run as ZEROSTEP: the step of a DO was 0."
            self.assertEqual(self.notes(step, "ZEROSTEP"), ["Test 2 is [4, 5, 6]: I=4, J=5, K=6.", told])
        self.assertIn("Step 7 ends the run as OVERFLOW", self.notes(7, "OVERFLOW", "--steps", "7")[1])

    def test_a_run_that_takes_long(self) -> None:
        found = self.notes(30000, "RETURNED 4 5 9")
        self.assertIn("not come to its end at step 10000", found[1])
        self.assertEqual(found[2], "With --steps 40000 it ends as RETURNED 4 5 9.")
        self.assertIn("at step 5,", self.notes(7, "OVERFLOW", "--steps", "5")[1])
        self.assertEqual(self.notes(999_999, "STOPPED 1 1 1")[2], "With --steps 1000000 it ends as STOPPED 1 1 1.")
        self.assertIn("With --steps 1000000, the largest limit, it comes to none", self.notes(1_000_001, "")[2])
        self.assertEqual(len(self.notes(1_000_001, "", "--steps", "1000000")), 3)

    def test_a_fault_of_the_program_is_not_told_here(self) -> None:
        job = json.dumps({"source": f"{FRONT}\n{SUM}\n{LAST}\n", "suite": [[1, 2, 3]]}).encode()
        with mock.patch.object(ends, "asked_outcome", side_effect=Fault("exec", "FAULT N1")):
            self.assertEqual(len(notes_on("B4", "test", "1", job, "mothra", ["run"])), 1)
        self.assertEqual(len(self.notes(1, "RETURNED 4 5 9")), 1)


class Words(unittest.TestCase):
    def test_the_option_that_is_wrong(self) -> None:
        for words, told in (
            ("run --ops ABS,rOR", "Is ROR meant?"), ("run --ops", "--ops has no value"),
            ("run --steps 0", "a number from 1 to 1000000"), ("run --workers=33", "a number from 1 to 32"),
            ("list --steps 5", "'--steps' is no option of this command"), ("run --worker 5", "Is --workers meant?"),
            ("run --every x", "which is no number"), ("run --every 1 --every 1", "--every stands twice"),
            ("exec", "--test is missing"), ("runs", "'runs' is no command"),
        ):  # fmt: skip
            with self.subTest(words):
                self.assertIn(told, words_say(words.split(" ")) or "")
        for words in ("run", "run --ops ABS,ROR --every +2 --steps 0010 --workers 32", "exec --test 1", "print"):
            self.assertIsNone(words_say(words.split(" ")))


class Told(unittest.TestCase):
    def test_every_code_is_explained_or_refused_in_one_line(self) -> None:
        details = {"": "", "name": " X", "key": " x", "operator": " ABS", "mutant": " ABS 1"}
        for code, meaning in MEANINGS.items():
            line = f"FAULT {code}{details.get(meaning.detail, ' 1')}"
            with self.subTest(line):
                try:
                    told = explained(line, json.dumps(JOB).encode(), None, [])
                except ValueError as fault:
                    self.assertIn("the fault is of another job", str(fault))
                else:
                    self.assertTrue(told.startswith(f"{line}\n"))
                    self.assertIn("What to do: ", told)


if __name__ == "__main__":
    unittest.main()
