"""The sweep over proved mutants: its rows, the programs that it makes, and what it says of answers."""

import re
import unittest
from collections.abc import Sequence
from itertools import cycle, islice
from random import Random
from unittest import mock

import running  # noqa: F401  it finds the package
from developing import equivalents_sweep as sweep
from developing.robustness.edges import edges_of, rows_for
from developing.robustness.programs import program_of
from mutants.jobs.cells import GREATEST, LEAST
from mutants.texts.cards import action_at, cards_of, source_lines
from mutants.suggestions.asking import Asker
from mutants.suggestions.shapes import Row
from mutants.texts.dummies import read_unit
from mutants.texts.proofs import Answer, Candidate, read_proofs

JUMPS = re.compile(r"GOTO(\d+)|GOTO\(([\d,]+)\)|\)(\d+,\d+,\d+)$")


def labels_in(text: str) -> list[str]:
    """The labels that a statement jumps to."""
    return [label for found in JUMPS.findall(text) for group in found if group for label in group.split(",")]


class Rows(unittest.TestCase):
    dummies = [("integer", None), ("logical", None), ("integer", 3)]

    def test_edges_are_constants_and_what_stands_beside_them(self) -> None:
        self.assertEqual(edges_of([7]), [-8, -7, -6, -1, 0, 1, 6, 7, 8])
        self.assertEqual(edges_of([GREATEST])[-2:], [GREATEST - 1, GREATEST])
        self.assertEqual(edges_of([GREATEST])[0], LEAST)

    def test_rows_fit_and_have_the_edges(self) -> None:
        rows = list(islice(rows_for(self.dummies, [7], Random(1)), 400))
        for number, truth, array in rows:
            self.assertTrue(type(number) is int and LEAST <= number <= GREATEST)
            self.assertIs(type(truth), bool)
            self.assertTrue(isinstance(array, tuple) and len(array) == 3)
        for edge in (LEAST, LEAST + 1, GREATEST, GREATEST - 1, 0, 1, -1, 6, 7, 8):
            self.assertTrue(any(row[0] == edge for row in rows), edge)
        self.assertEqual(rows, list(islice(rows_for(self.dummies, [7], Random(1)), 400)))


class Programs(unittest.TestCase):
    def test_the_same_seed_makes_the_same_programs(self) -> None:
        self.assertEqual(program_of(3, 1), program_of(3, 1))
        self.assertEqual(len({program_of(number, seed) for number in range(50) for seed in (1, 2)}), 100)

    def test_their_lines_are_in_fixed_form_and_their_labels_stand_outside_of_blocks(self) -> None:
        kinds: set[str] = set()
        for number in range(120):
            source = program_of(number, 1)
            self.assertTrue(all(len(line) <= 72 for line in source_lines(source)), source)
            self.assertTrue(read_unit(source)[1], source)
            self.assert_labels(source)
            kinds |= {re.split(r"[(=\d]", card.text[action_at(card.text) :])[0] for card in cards_of(source)}
        for kind in ("IF", "DO", "GOTO", "RETURN", "STOP", "ELSE", "ENDIF", "LOGICALP", "DATAL/", "CONTINUE", "IA"):
            self.assertIn(kind, kinds)

    def assert_labels(self, source: str) -> None:
        """Each label stands once; those of jumps stand outside of blocks and DOs; DO variables are not set."""
        depth, loops, outside = 0, list[tuple[str, str]](), set[str]()
        cards = cards_of(source)
        for card in cards:
            if card.label and depth == 0 and not loops:
                outside.add(card.label)
            loop = re.match(r"DO(\d+?)([A-Z]\w*)=", card.text)
            target = re.match(r"(\w+)=", card.text[action_at(card.text) :])
            self.assertFalse(target and not loop and target[1] in [name for _, name in loops], source)
            depth += (card.text.endswith("THEN") and not card.text.startswith("ELSE")) - (card.text == "ENDIF")
            if loop:
                loops.append((loop[1], loop[2]))
            if loops and loops[-1][0] == card.label:
                loops.pop()
        labels = [card.label for card in cards if card.label]
        self.assertEqual((depth, loops, len(set(labels))), (0, [], len(labels)), source)
        self.assertLessEqual({label for card in cards for label in labels_in(card.text)}, outside, source)


class Sweeping(unittest.TestCase):
    """A program with two mutants that are named, and a run in the place of mothra. The first is killed where I is below
    0, the second, which has 3 steps to spare, where it is above 99. On each row the program makes I steps, at least 1.
    """

    case = sweep.Case("least.f", running.LEAST, True)
    named = "EQUIVALENT ABS 1 1 LINE 3 K=IABS(I)\nSPARE 3 SDL 1 1 LINE 3 CONTINUE\n"
    last = "PROVED 2 OF 9, 1 NOT FINISHED\n"

    @staticmethod
    def kills(asker: Asker, rows: Sequence[Row], ops: Sequence[str], steps: int) -> dict[Row, int]:
        firsts = {row: row[0] for row in rows if isinstance(row[0], int)}
        return {row: (first < 0) + 2 * (first > 99) for row, first in firsts.items() if first <= steps}

    def tried(self, firsts: Sequence[int], led: Sequence[int] = (), rows: int = 4) -> sweep.Tried:
        """The sweep with these values of I by chance, and those to which failed proofs led."""
        text = self.named + "".join(f"ROW UOI 1 1 [{first},1,0]\n" for first in led) + self.last

        def answer(name: str, program: str, words: Sequence[str], job: bytes) -> str:
            self.assertEqual((program, words), ("equivalents", ["--rows", str(rows)] if rows else []))
            return text

        listed = [proof.mutant for proof in read_proofs(text).proofs]
        made = cycle((first, 1, 0) for first in firsts)
        fakes = {"asked_list": lambda *_: ([], listed), "asked_print": lambda *_: [], "plain_answer": answer,
                 "rows_for": lambda *_: made}  # fmt: skip
        runs = {"kills": self.kills, "ending": lambda asker, rows, steps: rows}
        with mock.patch.multiple(sweep, **fakes), mock.patch.multiple(Asker, **runs):
            return sweep.tried(sweep.Programs("mothra", "equivalents", 256, 1, rows), self.case)

    def test_rows_by_chance_and_those_of_failed_proofs(self) -> None:
        tried = self.tried([1, 5, 9], [5, 7, 7])
        counts = "2 proved, 1 with steps to spare (3 at most), 1 not finished, 4 tests (1 by failed proofs), 0 killed"
        self.assertEqual(sweep.line_on("least.f", [tried]), f"least.f: 2 mutants, {counts}")
        self.assertEqual(list(sweep.faults_of(tried)), [])
        self.assertEqual((self.tried([1], rows=0).led, len(self.tried([1], rows=0).tests)), (set(), 1))

    def test_a_program_is_given_up_where_nothing_is_proved_and_mutants_are_not_finished(self) -> None:
        tried = self.tried([1])
        given_up = tried._replace(answer=Answer([], 2), tests=())
        self.assertTrue(sweep.line_on_made([tried, given_up]).endswith(", 0 killed, 0 without a test, 1 given up"))
        without = [tried._replace(tests=()), given_up._replace(answer=Answer([]))]
        self.assertTrue(sweep.line_on_made(without).endswith(", 1 without a test, 0 given up"))

    def test_a_test_that_kills_is_told_with_the_program(self) -> None:
        told, *source = list(sweep.faults_of(self.tried([1, -5], [-7])))
        killed = "equivalent: killed by [-5, 1, 0] with --steps 10000"
        self.assertEqual(told, f"least.f: ABS 1 1 LINE 3 K=IABS(I), {killed}")
        self.assertEqual(source, [running.LEAST.rstrip("\n")])

    def test_a_mutant_that_a_row_of_a_failed_proof_alone_kills(self) -> None:
        tried = self.tried([1, -5], [-7, 100])
        self.assertEqual([each.proof.mutant.op for each in tried.killed], ["ABS", "SDL"])
        self.assertEqual([each.test for each in tried.killed_by_led()], [(100, 1, 0)])
        self.assertIn("with --steps 10000, a row of a failed proof", list(sweep.faults_of(tried))[1])

    def test_a_row_that_does_not_leave_the_steps_to_spare_may_kill(self) -> None:
        self.assertEqual(self.tried([9998]).killed, [])
        self.assertEqual(len(self.tried([9997]).killed), 1)

    def test_of_many_rows_of_failed_proofs_some_are_tried(self) -> None:
        answer = Answer([], candidates=[Candidate("UOI", 1, 1, [number % 50, [1]]) for number in range(100)])
        self.assertEqual(len(sweep.led_rows(answer, 256, Random(1))), 50)
        rows = sweep.led_rows(answer, 20, Random(1))
        self.assertEqual((len(set(rows)), rows), (20, sweep.led_rows(answer, 20, Random(1))))


if __name__ == "__main__":
    unittest.main()
