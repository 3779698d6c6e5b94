"""The rows of a box: which there are, and what does not serve."""

import itertools
import unittest

import running  # noqa: F401  it finds the package
from mutants.suggestions.box import box_of

ARRAYS = """\
      SUBROUTINE S(N,A,P,K)
      INTEGER A(2)
      LOGICAL P
      IF (P) K=A(N)
      END
"""


class Rows(unittest.TestCase):
    def test_all_rows_in_order(self) -> None:
        found = box_of([("n", (1, 2)), ("2", (0, 1))], ARRAYS, ["N", "A", "P", "K"])
        arrays = itertools.product((0, 1), repeat=2)
        wanted = [(n, a, p, 0) for n in (1, 2) for a in arrays for p in (False, True)]
        self.assertEqual((list(found.rows())[:8], found.size), (wanted[:8], 2 * 4 * 2))
        self.assertEqual(found.text, "N from 1 to 2 and A from 0 to 1")

    def test_what_does_not_serve(self) -> None:
        for asked, told in (
            ([("N", (1, 2))], "--within says nothing of A, which the program reads"),
            ([("N", (1, 2)), ("A", (1, 2)), ("P", (0, 1))], "P is LOGICAL, and has both"),
            ([("N", (1, 250001)), ("A", (0, 1))], "the box has 2,000,008 rows, and 1,000,000 are tried at most"),
            ([("X", (1, 2))], "X is no argument"),
        ):
            with self.subTest(told), self.assertRaisesRegex(ValueError, told):
                box_of(asked, ARRAYS, ["N", "A", "P", "K"])


if __name__ == "__main__":
    unittest.main()
