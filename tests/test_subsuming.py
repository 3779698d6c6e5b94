"""Which mutants matter: the smallest set that subsumes all, and the score over it. And sets of operators by name."""

import itertools
import unittest

import running  # noqa: F401  it finds the package
from mutants.operators import codes_in
from mutants.texts.lines import Mutant
from mutants.texts.reports import Row
from mutants.texts.subsuming import least_sets, subsuming


def mutants_of(*told: str) -> tuple[list[Mutant], list[Row]]:
    """Mutants by their digits, such as 0110, each another program; E is one that does not count."""
    listed = [Mutant("ROR", at, at, 1, f"K={at}") for at in range(1, len(told) + 1)]
    status = {"E": "E", "0": "S"}
    rows = [Row("ROR", at, at, status.get("".join(sorted(set(bits))), "K"), bits) for at, bits in enumerate(told, 1)]
    return listed, rows


class Sets(unittest.TestCase):
    def test_the_set_is_the_smallest_that_subsumes_all(self) -> None:
        """By the definition: each killed mutant is subsumed by one of the set, and no smaller set does that."""
        for masks in itertools.combinations(range(1, 16), 4):
            found = least_sets(masks)
            sets = [kept for size in range(1, 5) for kept in itertools.combinations(masks, size)]
            whole = [kept for kept in sets if all(any(each & mask == each for each in kept) for mask in masks)]
            self.assertEqual(sorted(found), sorted(min(whole, key=len)))

    def test_the_score_counts_a_set_of_killers_once_and_each_survivor(self) -> None:
        found = subsuming(*mutants_of("100", "110", "111", "100", "011", "000", "000", "EEE"))
        self.assertEqual([mutant.place for mutant in found.killed], [1, 5])
        self.assertIn("it is 50.00 %: 2 of 4 mutants killed.", found.text())

    def test_survivors_that_are_one_program_are_one(self) -> None:
        listed, rows = mutants_of("10", "00", "00")
        alike = [mutant._replace(text="K=0") for mutant in listed]
        self.assertEqual(subsuming(alike, rows).counted, (2, 1, 0))

    def test_sufficient_operators(self) -> None:
        self.assertEqual(codes_in("sufficient"), ["ABS", "AOR", "LCR", "ROR", "UOI"])
        self.assertEqual(codes_in("sdl, Sufficient"), ["ABS", "AOR", "LCR", "ROR", "SDL", "UOI"])


if __name__ == "__main__":
    unittest.main()
