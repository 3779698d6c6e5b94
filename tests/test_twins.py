"""Mutants that are one program: which these are, by which names, and that each is counted once."""

import unittest

import running  # noqa: F401  it finds the package
from mutants.subcommands.declare import names_in
from mutants.texts.lines import Mutant
from mutants.texts.reports import Count, Row
from mutants.texts.twins import count_of_programs, names_text, others_by_name, twins_in

LISTED = [
    Mutant("AAR", 1, 1, 3, "K=M(I)"), Mutant("ABS", 1, 1, 3, "K=IABS(J)"), Mutant("ABS", 2, 2, 3, "K=IABS(J)"),
    Mutant("ABS", 3, 3, 4, "K=IABS(J)"), Mutant("SVR", 9, 9, 3, "K=M(I)"), Mutant("UOI", 1, 1, 3, "K=-J"),
]  # fmt: skip


class Groups(unittest.TestCase):
    def test_the_same_text_on_the_same_line_is_one_program(self) -> None:
        names = [names_text(group) for group in twins_in(LISTED)]
        self.assertEqual(names, ["AAR 1, SVR 9", "ABS 1, 2", "ABS 3", "UOI 1"])
        found = {name: names_text(twins) for name, twins in others_by_name(LISTED).items()}
        self.assertEqual(found, {"AAR 1": "SVR 9", "SVR 9": "AAR 1", "ABS 1": "ABS 2", "ABS 2": "ABS 1"})

    def test_names_can_be_declared_as_they_are_told(self) -> None:
        self.assertEqual(names_in(["AAR 1, SVR 9, 12"]), [("AAR", 1), ("SVR", 9), ("SVR", 12)])

    def test_programs_are_counted_once(self) -> None:
        rows = [Row(*mutant[:3], status, "") for mutant, status in zip(LISTED, "SEEKSK")]
        self.assertEqual(count_of_programs(LISTED, rows), Count(4, 2, 1))
        rows = [Row(*mutant[:3], status, "") for mutant, status in zip(LISTED, "SESKEW")]
        self.assertEqual(count_of_programs(LISTED, rows), Count(4, 2, 2))


if __name__ == "__main__":
    unittest.main()
