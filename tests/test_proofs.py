"""Proofs of equivalence without a program: how they are read, what each is called, and where the program is found."""

import json
import os
import unittest
from pathlib import Path
from unittest import mock

from running import LEAST, Folder, has, holds
from mutants.declarations import proving
from mutants.declarations.proofs import (
    NO_PROOFS, Proofs, assert_listed, decided_text, killed_later, proofs_of, wrongly_proved,
)  # fmt: skip
from mutants.declarations.proving import NOT_FOUND, NO_PROVER, Prover
from mutants.declarations.said import Said
from mutants.pages.declared import proved_part
from mutants.program import finding
from mutants.program.calling import Fault
from mutants.statuses import FAULT, WORDS
from mutants.texts.jobs import Job, declared_text
from mutants.texts.lines import Mutant
from mutants.texts.proofs import Answer, Candidate, Left, Proof, meaning_of, read_proofs
from mutants.texts.reports import Count, Row

LINES = """\
EQUIVALENT ABS 2 4 LINE 7 K=IABS(I)
SPARE 3 SDL 1 1 LINE 9 CONTINUE
PROVED 2 OF 9
"""
UNFINISHED = LINES.replace("OF 9", "OF 9, 7 NOT FINISHED")
ROWS = LINES.replace("PROVED", "ROW ABS 3 5 [1,-2,false,[3,4]]\nROW ABS 3 5 []\nPROVED")
ENDS = ROWS.replace("PROVED", "LEFT ABS 3 5 AT 7 7 VALUES K\nLEFT ABS 4 7 AT 8 12\nPROVED")


class Reading(unittest.TestCase):
    def test_a_line_has_its_mutant_and_how_many_steps_are_to_spare(self) -> None:
        first, second = Mutant("ABS", 2, 4, 7, "K=IABS(I)"), Mutant("SDL", 1, 1, 9, "CONTINUE")
        self.assertEqual(read_proofs(LINES), Answer([Proof(first), Proof(second, 3)]))
        self.assertEqual(read_proofs(UNFINISHED), Answer([Proof(first), Proof(second, 3)], 7))
        self.assertEqual(read_proofs("PROVED 0 OF 0\n"), Answer([]))
        self.assertEqual(read_proofs("PROVED 0 OF 10, 10 NOT FINISHED\n"), Answer([], 10))

    def test_a_row_has_its_mutant_and_a_test(self) -> None:
        candidates = [Candidate("ABS", 3, 5, [1, -2, False, [3, 4]]), Candidate("ABS", 3, 5, [])]
        self.assertEqual(read_proofs(ROWS), Answer(read_proofs(LINES).proofs, 0, candidates))
        self.assertEqual(proofs_of(read_proofs(ROWS)).candidates, candidates)

    def test_where_a_proof_was_given_up(self) -> None:
        ends = [Left("ABS", 3, 5, 7, 7, "K"), Left("ABS", 4, 7, 8, 12)]
        self.assertEqual(read_proofs(ENDS), read_proofs(ROWS)._replace(left=ends))
        self.assertEqual(read_proofs("LEFT SDL 1 1 AT 3 3\nPROVED 0 OF 1\n").left, [Left("SDL", 1, 1, 3, 3)])
        # A job names a mutant by its number in the whole list.
        self.assertEqual(proofs_of(read_proofs(ENDS)).left, {"ABS 5": ends[0], "ABS 7": ends[1]})

    def test_where_a_proof_was_given_up_in_words(self) -> None:
        apart = "the proof ends where the program is at line 12 and the mutant at line 14"
        for own, other, told in ((12, 12, "the proof ends at line 12"), (12, 14, apart)):
            self.assertEqual(Left("ABS", 3, 5, own, other).text(), told)
            values = f"{told}, and values of K may differ there"
            self.assertEqual(Left("ABS", 3, 5, own, other, "K").text(), values)

    def test_a_mutant_with_steps_to_spare_is_told_apart(self) -> None:
        found = proofs_of(read_proofs(LINES))
        self.assertEqual((found.names, list(map(found.has_spare, found.names))), (["ABS 4", "SDL 1"], [False, True]))
        self.assertEqual(found.reason("ABS 4"), "proved equivalent")
        self.assertEqual(found.reason("SDL 1"), "proved equivalent with 3 steps to spare")
        self.assertEqual(meaning_of(1), "equivalent with 1 step to spare")
        self.assertEqual((found.for_all_tests().names, found.has_spare("ROR 1")), (["ABS 4"], False))

    def test_that_some_are_not_finished_is_told(self) -> None:
        self.assertEqual(proofs_of(read_proofs(LINES)).left_open(), "")
        for unfinished, told in ((UNFINISHED, "7 mutants."), ("PROVED 0 OF 1, 1 NOT FINISHED\n", "1 mutant.")):
            sentence = f"The program equivalents stopped at its bound of work for {told}"
            self.assertEqual(proofs_of(read_proofs(unfinished)).left_open(), sentence)

    def test_a_number_that_no_job_declares_is_left_out(self) -> None:
        great = Mutant("GLR", 1, 1_048_576, 7, "GO TO 10")
        answer = Answer([Proof(great), Proof(great._replace(place=7))])
        self.assertEqual(proofs_of(answer).names, ["GLR 7"])

    def test_what_is_no_such_text_is_refused(self) -> None:
        for text, told in (
            ("", "cut short"), (LINES[:-1], "cut short"), (LINES.replace("2 OF", "3 OF"), "has not their number"),
            (LINES.replace("OF 9", "OF 1"), "has not their number"), (LINES.replace("SPARE 3", "SPARE 0"), "is none"),
            (UNFINISHED.replace("7 NOT", "8 NOT"), "has not their number"), (LINES.replace("7 K", "K"), "is none"),
            (UNFINISHED.replace("7 NOT", "0 NOT"), "cut short"), (UNFINISHED.replace(", 7", " 7"), "cut short"),
            (UNFINISHED.replace("FINISHED", "FINISHED,"), "cut short"), (LINES.replace("SPARE 3", "SPARE"), "is none"),
            (LINES.replace("SPARE 3", "SPARE 03"), "is none"), (LINES.replace("SPARE 3", "SPARE 3A"), "is none"),
            (LINES.replace("SPARE 3", "SPARE -3"), "is none"), (LINES.replace("SPARE 3", "SPARE-3"), "is none"),
            (LINES.replace("ABS", "1 ABS"), "is none"), (LINES.replace("4 LINE", "4 SAME LINE"), "is none"),
            (LINES.replace("ABS 2 4", "ABS 2"), "is none"), ("FAULT S2 1\n", "is a fault"),
            ("EQUIVALENT ABS 1 1 LINE 1 K=I\n" * 2 + "PROVED 2 OF 2\n", "twice"), ("ABS 1\nTOTAL 1\n", "is none"),
            ("EQUIVALENT ABS 1 1 LINE 1 K=I\nSPARE 1 ABS 1 1 LINE 1 K=I\nPROVED 2 OF 2\n", "twice"),
            (ROWS.replace("[]", "[1"), "row that is none"), (ROWS.replace("[]", "[null]"), "row that is none"),
            (ROWS.replace("[]", "[1.5]"), "row that is none"), (ROWS.replace("[]", "[[1,true]]"), "row that is none"),
            (ROWS.replace("[]", "[[]]"), "row that is none"), (ROWS.replace("[]", "[[[1]]]"), "row that is none"),
            (ROWS.replace("[]", "7"), "row that is none"), (ROWS.replace("ABS 3 5", "ABS 3"), "row that is none"),
            (ROWS.replace("ROW ABS 3 5 []", "SPARE 1 SDL 2 2 LINE 9 CONTINUE"), "row that is none"),
            (ROWS.replace("ABS 3 5", "SDL 1 1"), "a row of a mutant that they name"),
            (ENDS.replace("7 7 V", "7 V"), "LEFT that is none"), (ENDS.replace(" K\n", "\n"), "LEFT that is none"),
            (ENDS.replace("8 12", "8 012"), "LEFT that is none"), (ENDS.replace("8 12", "8 12 "), "LEFT that is none"),
            (ENDS.replace("ABS 4 7", "ABS 4"), "LEFT that is none"), (ENDS.replace("ABS 4 7", "ABS 3 5"), "twice"),
            (ENDS.replace("LEFT ABS 4 7 AT 8 12", "ROW ABS 3 5 []"), "LEFT that is none"),
            (ENDS.replace("ABS 4 7", "SDL 1 1"), "twice"), (ENDS.replace("LEFT ABS 3", "ABS 3"), "row that is none"),
        ):  # fmt: skip
            with self.subTest(text[:40]), self.assertRaisesRegex(ValueError, told):
                read_proofs(text)

    def test_each_is_one_of_the_list(self) -> None:
        proofs = read_proofs(LINES).proofs
        listed = [proof.mutant for proof in proofs]
        assert_listed(proofs, listed)
        for other in (listed[:1], [listed[0], listed[1]._replace(line=8)], [listed[0]._replace(text="K=I"), listed[1]]):
            with self.assertRaisesRegex(ValueError, "is another mutant in the list of mothra"):
                assert_listed(proofs, other)

    def test_a_job_with_more_declared_mutants(self) -> None:
        job = b'{"source": "x", "equivalent": ["ROR 1"]}'
        self.assertEqual(declared_text(job, []), job)
        self.assertEqual(json.loads(declared_text(job, ["SDL 2"]))["equivalent"], ["ROR 1", "SDL 2"])


class Finding(Folder):
    def test_it_is_found_as_mothra_is(self) -> None:
        prover = self.put_program("prover", "#!/bin/sh\n")
        gone = mock.patch.object(finding, "BUILT_EQUIVALENTS", Path("gone"))
        with mock.patch.dict(os.environ, {"EQUIVALENTS": "", "PATH": "", "XDG_CACHE_HOME": "/gone"}), gone:
            self.assertIsNone(finding.find_equivalents(None))
            self.assertEqual(finding.find_equivalents(str(prover)), str(prover))
            with mock.patch.object(finding, "BUILT_EQUIVALENTS", prover):
                self.assertEqual(finding.find_equivalents(None), str(prover))
            os.environ["EQUIVALENTS"] = str(prover)
            self.assertEqual(finding.find_equivalents(None), str(prover))
        with self.assertRaisesRegex(ValueError, "there is no program gone, which --equivalents names"):
            finding.find_equivalents("gone")

    def test_without_one_nothing_is_proved_and_why_is_told(self) -> None:
        found = Prover(not_asked=NOT_FOUND).proofs([], Job(LEAST, [], ["ROR 1"]), [])
        told = "Which mutants can be proved equivalent was not asked: the program equivalents is not found."
        self.assertEqual((found.names, found.left_open()), ([], told))
        self.assertEqual(NO_PROVER.proofs([], Job(LEAST, []), []).left_open(), "")


class Asking(Folder):
    """What the program is asked, and how often."""

    def setUp(self) -> None:
        super().setUp()
        self.asked: list[list[str]] = []
        self.prover = Prover(str(self.put_program("prover", "#!/bin/sh\n")), rows=3)
        self.refused = 0
        holds(self, mock.patch.dict(os.environ, {"XDG_CACHE_HOME": str(self.folder / "caches")}))
        holds(self, mock.patch.object(proving, "plain_answer", self.answer))

    def answer(self, name: str, program: str, words: list[str], job: bytes, seconds: float | None) -> str:
        self.asked.append(words)
        if "--rows" in words and self.refused:
            raise Fault("", "unexpected", self.refused, name)
        return ROWS if "--rows" in words else LINES

    def test_an_answer_with_rows_is_kept_apart_from_one_without(self) -> None:
        without = self.prover._replace(rows=0)
        for prover, candidates, count in ((self.prover, 2, 1), (without, 0, 2), (self.prover, 2, 2), (without, 0, 2)):
            answer = prover.proved(["--ops", "SDL"], Job(LEAST, []))
            self.assertEqual((len(answer.candidates), len(self.asked)), (candidates, count))
        self.assertEqual(self.asked, [["--ops", "SDL", "--rows", "3"], ["--ops", "SDL"]])

    def test_a_program_that_gives_no_rows_is_asked_without(self) -> None:
        self.refused = WORDS
        self.assertEqual(self.prover.proved([], Job(LEAST, [])), read_proofs(LINES))
        self.assertEqual(self.asked, [["--rows", "3"], []])
        self.refused = FAULT
        with self.assertRaises(Fault):
            self.prover.proved([], Job(LEAST, []))

    def test_of_many_tests_the_first_ones_alone_have_rows(self) -> None:
        self.assertEqual(len(self.prover.proved([], Job(LEAST, [[1, 2, 3]] * 300)).candidates), 2)
        self.assertEqual(self.asked, [["--rows", "3"], ["--ops", "SDL"]])


class Values(unittest.TestCase):
    def test_how_many_are_decided(self) -> None:
        count, proofs = Count(9, 4, 3), proofs_of(Answer([]))
        self.assertEqual(decided_text(count, 2, proofs), "Of 8 mutants: 4 killed, 2 proved equivalent, 2 undecided.")
        self.assertEqual((decided_text(count, 2, NO_PROOFS), decided_text(Count(1, 0, 1), 0, proofs)), ("", ""))

    def test_what_is_declared_by_a_proof_alone(self) -> None:
        found = Proofs({"ROR 1": 0, "ABS 2": 0}, {"ROR 1"})
        self.assertEqual((found.names, found.is_alone("ROR 1"), found.is_alone("SDL 1")), (["ABS 2"], False, False))
        self.assertEqual((NO_PROOFS.names, NO_PROOFS.left_open(), NO_PROOFS.reason("ROR 1")), ([], "", ""))

    def test_one_that_a_later_row_kills_is_no_fault_of_the_programs(self) -> None:
        proofs = Proofs({"ROR 1": 0, "ROR 7": 2, "ROR 3": 1}, tests=2)
        rows = [Row("ROR", 7, 7, "W", "001"), Row("ROR", 3, 3, "W", "011"), Row("ROR", 1, 1, "W", "001")]
        self.assertEqual((killed_later(rows, proofs), wrongly_proved(rows, proofs)), (["ROR 7"], ["ROR 3", "ROR 1"]))
        alive = [row._replace(status="E", bits="000") for row in rows]
        self.assertEqual((killed_later(alive, proofs), wrongly_proved(alive, proofs)), ([], []))

    def test_rows_that_are_killed_come_first(self) -> None:
        listed = [Mutant("ROR", n, n, 3, f"K={n}") for n in (1, 2)]
        rows = [Row("ROR", 1, 1, "E", "0"), Row("ROR", 2, 2, "W", "1")]
        part = proved_part(listed, rows, {3: "K=9"}, Said(proofs=Proofs({"ROR 1": 0, "ROR 2": 0})))
        self.assertLess(part.index("ROR 2"), part.index("ROR 1"))
        has(self, part, "<summary>2 mutants proved equivalent</summary>", "proved equivalent</td>")
        self.assertEqual(proved_part([], [], {}, Said()), "")


if __name__ == "__main__":
    unittest.main()
