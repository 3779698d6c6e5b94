"""What is expected of a test, in its forms, beside what the program does."""

import unittest

import running  # noqa: F401  it finds the package
from mutants.checks.outcomes import differences, is_met, words_in

class Met(unittest.TestCase):
    def test_the_forms_of_an_outcome(self) -> None:
        for text in (
            "", " ", OUTCOME, OUTCOME.lower(), "-3 (1,2,3) T", "-03 ( 1, 2,+3 ) true", "-3 [1 2 3] .TRUE.", "* * *",
            "RETURNED * (1,2,3) *", "I=-3", "i = -3 P=T", "M=(1, 2, 3)", "RETURNED I=-3", "I=*", "RETURNED",
        ):  # fmt: skip
            with self.subTest(text):
                self.assertTrue(is_met(text, OUTCOME, NAMES), words_in(text))

    def test_what_differs(self) -> None:
        for text in ("STOPPED", "STOPPED -3 (1,2,3) T", "3 (1,2,3) T", "-3 (1,2) T", "-3 (1,2,3) F", "I=-3 P=F", "M=1"):
            with self.subTest(text):
                self.assertFalse(is_met(text, OUTCOME, NAMES))

    def test_what_is_no_expectation(self) -> None:
        short = "has 1 values, and the subroutine has 3 .*; an array is one value"
        for text, told in (("1", short), ("N=1", "N is no dummy"), ("I=1 2", "2 values")):
            with self.subTest(text), self.assertRaisesRegex(ValueError, f"expected of test 1: .*{told}"):
                differences({1: text}, [OUTCOME], NAMES)


NAMES = ["I", "M", "P"]


OUTCOME = "RETURNED -3 (1,2,3) T"


if __name__ == "__main__":
    unittest.main()
