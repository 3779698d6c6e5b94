"""The tool rows: which blocks of a table differ. A program that the test writes stands in place of the real one."""

import contextlib
import io
import sys
import tempfile
import unittest
from argparse import Namespace
from pathlib import Path
from unittest import mock

import running  # noqa: F401
from developing import rows

TABLE = "# Sums.\n$ mothra exec --test 1\n> K=I+J | [[2,3,0]]\n\n# Damaged jobs.\n$ mothra print\n!\n"
ANSWERS = """\
# Sums.
$ mothra exec --test 1
> K=I+J | [[2,3,0]]
0: RETURNED 2 3 5
> K=I*J | [[2,4,0]]
0: RETURNED 2 4 8

# Damaged jobs.
$ mothra print
!
1: FAULT J2
"""
DIFFERS = """\
# Sums.
 0: RETURNED 2 3 5
 > K=I*J | [[2,4,0]]
-0: RETURNED 2 4 8
+0: RETURNED 2 4 6

2 blocks, 1 differ
"""


class Rows(unittest.TestCase):
    def shown(self, answers: str, accept: bool = False, status: int = 0) -> tuple[int, str, str]:
        """The exit status of the tool, what it shows, and the answers that are wanted from then on."""
        with tempfile.TemporaryDirectory() as folder, contextlib.redirect_stdout(io.StringIO()) as out:
            table, wanted, program = (Path(folder, name) for name in ("stdin", "stdout", "program"))
            table.write_text(TABLE)
            wanted.write_text(ANSWERS)
            read = f"import sys\nassert sys.stdin.read() == {TABLE!r}\n"
            program.write_text(f"#!{sys.executable}\n{read}sys.stdout.write({answers!r})\nsys.exit({status})\n")
            program.chmod(0o755)
            with mock.patch.multiple(rows, TABLE=table, WANTED=wanted):
                ended = rows.run(Namespace(program=program, unproved=False, accept=accept), "tools/rows")
            return ended, out.getvalue(), wanted.read_text()

    def test_answers_as_wanted_and_not(self) -> None:
        self.assertEqual(self.shown(ANSWERS), (0, "2 blocks, 0 differ\n", ANSWERS))
        self.assertEqual(self.shown(ANSWERS.replace("4 8", "4 6")), (1, DIFFERS, ANSWERS))

    def test_a_block_that_is_gone(self) -> None:
        status, shown, _ = self.shown(ANSWERS[: ANSWERS.index("# Damaged")])
        self.assertEqual((status, shown.splitlines()[0]), (1, "# Damaged jobs."))
        self.assertIn("-1: FAULT J2\n", shown)

    def test_answers_are_accepted_once_they_were_shown(self) -> None:
        other = ANSWERS.replace("J2", "J3")
        status, shown, wanted = self.shown(other, accept=True)
        self.assertEqual((status, wanted), (0, other))
        self.assertIn("-1: FAULT J2\n+1: FAULT J3\n", shown)

    def test_a_program_that_fails(self) -> None:
        with self.assertRaisesRegex(ValueError, "ended with 1"):
            self.shown(ANSWERS, accept=True, status=1)
