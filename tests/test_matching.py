"""What of two states is matched: statements, and tests."""

import unittest

import running  # noqa: F401  it finds the package
from mutants.comparisons.matching import lines_matched, tests_matched

class Matching(unittest.TestCase):
    def test_statements_in_order_and_those_that_moved(self) -> None:
        olds = {3: "K=I", 4: "L=J", 6: "CONTINUE", 7: "K=I", 8: "END"}
        news = {2: "L=J", 5: "K=I", 6: "M=1", 9: "CONTINUE", 11: "END", 12: "K=I"}
        self.assertEqual(lines_matched(olds, news), {3: 5, 6: 9, 8: 11, 4: 2, 7: 12})

    def test_tests_by_their_values_each_once(self) -> None:
        self.assertEqual(tests_matched(["[1]", "[2]", "[1]"], ["[2]", "[1]", "[3]", "[1]"]), [(1, 4), (2, 1), (3, 2)])


if __name__ == "__main__":
    unittest.main()
