"""Reports written back, and joined: of batches of tests, and of groups of operators, byte for byte."""

import unittest

import running  # noqa: F401  it finds the package
from mutants.texts.joining import joined_batches, joined_operators
from mutants.texts.report_lines import report_text
from mutants.texts.reports import read_report
from pieces import STORED, batch_of, group_of, stored


class Written(unittest.TestCase):
    def test_what_is_read_is_written_back_byte_for_byte(self) -> None:
        self.assertIn("triangle-full", STORED)
        for text in map(stored, STORED):
            self.assertEqual(report_text(read_report(text)), text)


class Batches(unittest.TestCase):
    def test_those_of_the_stored_reports(self) -> None:
        for name in STORED:
            whole = read_report(stored(name))
            for cuts in ([0, whole.tests], [0, 1, whole.tests], [0, 2, 3, whole.tests], list(range(whole.tests + 1))):
                with self.subTest(name, cuts=cuts):
                    batches = [batch_of(whole, *pair) for pair in zip(cuts, cuts[1:])]
                    self.assertEqual(report_text(joined_batches(batches)), stored(name))

    def test_refuses_those_of_other_mutants(self) -> None:
        whole = read_report(stored("euclid"))
        one, other = batch_of(whole, 0, 4), batch_of(whole, 4, whole.tests)
        for wrong in (
            other._replace(unit="OTHER"),
            other._replace(steps=1),
            group_of(other, ["ABS"]),
            other._replace(rows=[other.rows[0]._replace(status="E"), *other.rows[1:]]),
            other._replace(survivors=[each._replace(text="K=1") for each in other.survivors]),
        ):
            with self.subTest(wrong=wrong[:4]), self.assertRaises(ValueError):
                joined_batches([one, wrong])


class Groups(unittest.TestCase):
    def test_those_of_the_stored_reports(self) -> None:
        for name in STORED:
            whole = read_report(stored(name))
            ops = list(whole.counts)
            groups = [group_of(whole, part) for part in (ops[:1], ops[1:9], ops[9:])]
            self.assertEqual(report_text(joined_operators(groups)), stored(name))
            with self.assertRaises(ValueError):
                joined_operators([groups[0], groups[1]._replace(unit="OTHER")])


if __name__ == "__main__":
    unittest.main()
