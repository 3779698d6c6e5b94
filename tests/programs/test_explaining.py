"""The subcommand explain: a line that is given, a call that is made, and all that keeps a unit from being read."""

import json
import unittest

from proved import mutants
from room import Room
from running import LEAST, Ended, example, refuses, run

CALLS = "      SUBROUTINE A(I)\n      CALL X\n      I=1\n      CALL Y\n      CALL Z\n      END\n"
JOB = {"source": "      SUBROUTINE ADD(I,J,K)\n      K=.TRUE.\n      END\n", "suite": [[1, 2, 3]]}


class Jobs(Room):
    def explain(self, job: object, *words: str, given: bytes = b"") -> Ended:
        path = self.put("job.json", job if isinstance(job, bytes) else json.dumps(job))
        return mutants("explain", path, *words, given=given)

    def test_a_line_that_was_given(self) -> None:
        wanted = self.explain(JOB, "FAULT", "C4", "2")
        self.assertEqual(wanted[0], 0)
        self.assertTrue(wanted[1].startswith("FAULT C4 2\nINTEGER and LOGICAL do not agree"))
        self.assertIn("     2 |       K=.TRUE.\n       |       ^^^^^^^^\n", wanted[1])
        self.assertIn("ANSI X3.9-1978", wanted[1])
        self.assertEqual(self.explain(JOB, "FAULT C4 2"), wanted)
        self.assertEqual(self.explain(JOB, "-", given=b"FAULT C4 2\n"), wanted)

    def test_the_program_is_run(self) -> None:
        job = {"source": LEAST, "suite": [[1, 2]]}
        self.assertTrue(self.explain(JOB)[1].startswith("FAULT C4 2\n"))
        self.assertIn("Test 1 is [1, 2].", self.explain(job)[1])
        self.assertIn("Is ROR meant?", self.explain(job, "run", "--ops", "RO")[1])
        self.assertEqual(self.explain({"source": LEAST}), (0, "There is no fault.\n", ""))

    def test_bad_input_is_one_line(self) -> None:
        for job, words, told in (
            (JOB, "FAULT Z9", "no line of a fault"), (JOB, "FAULT C4", "no number of a line"),
            (JOB, "FAULT C4 99", "another job"), (b"[]", "FAULT J4 1", "another job"), (b"{", "FAULT C4 2", "JSON"),
            ({"source": 1, "suite": 5}, "FAULT B3 1", "another job"), (JOB, "-", "no line of a fault"),
        ):  # fmt: skip
            refuses(self, self.explain(job, *words.split(" "), given=b"what\n"), told)
        refuses(self, run("explain", "there-is-none"), "there-is-none: No such file")
        refuses(self, run("explain", "--mothra", "there-is-none", example("euclid", ".json")), "no program")


class Sources(Room):
    def explain(self, source: str, *words: object, front: tuple[object, ...] = ()) -> str:
        self.program.write_text(source)
        status, out, errors = mutants("explain", *front, self.program, *words)
        self.assertEqual((status, errors), (0, ""))
        return out

    def test_all_that_is_in_the_way_of_a_program_is_told(self) -> None:
        out = self.explain(CALLS)
        self.assertTrue(out.startswith("FAULT S2 2\n"))
        told = out.partition("What else keeps the unit from being read (2), the first fault taken out:\n")[2]
        more = "".join(f"  line {line}, S2: CALL {name} (as on line 2)\n" for line, name in ((4, "Y"), (5, "Z")))
        self.assertTrue(told.startswith(more), told)
        self.assertNotIn("beyond these", out)
        job = self.put("job.json", json.dumps({"source": CALLS}))
        self.assertIn("  line 4, S2: CALL Y (as on line 2)\n", mutants("explain", job)[1])
        self.assertNotIn("CALL Y", mutants("explain", job, "FAULT", "S2", "2")[1])

    def test_the_lines_are_those_of_the_file_whatever_the_job_has(self) -> None:
        source = LEAST + "      SUBROUTINE B(N,X)\n      INTEGER   X(N)\n      CALL X\n      END\n"
        out = self.explain(source, front=("--unit", "B", "--size", "N=3"))
        self.assertIn("     8 |       CALL X\n       |       ^^^^^^\n", out)
        self.assertNotIn("What else", out)

    def test_options_stand_in_front(self) -> None:
        for words in (["--unit", "A"], ["tests.csv", "--size", "N=1"]):
            refuses(self, mutants("explain", self.program, *words), "stands behind", "options come before it")
        self.assertIn("There is no fault.", self.explain(LEAST, "list", "--ops", "SDL"))

    def test_free_form_is_told(self) -> None:
        refuses(self, mutants("explain", self.put("a.f90", LEAST)), "free form is not read")
        told = "it is no job in JSON, and the name of a program ends in .f, .for"
        refuses(self, mutants("explain", self.put("a.txt", LEAST)), told)
        told = self.explain("SUBROUTINE A(I)\n", "FAULT", "F5", "1")
        self.assertIn("It begins before column 7, as in free form", told)

    def test_a_table_and_declarations_beside(self) -> None:
        self.put("least.equivalent.csv", "mutant,before,after\nROR 1,IF (J.LT.I) K=J,IF (J.LE.I) K=J\n")
        self.put("tests.csv", "K,I,J\n0,1,2\n0,1,2\n")
        self.assertEqual(self.explain(LEAST, self.tests), "There is no fault.\n")
        self.assertIn("FAULT J8 3\n", self.explain(LEAST, self.tests, "exec", "--test", "3"))
        self.put("tests.csv", "K,I,J\n0,1,2\n\n0,T,2\n")
        told = self.explain(LEAST, self.tests)
        self.assertIn("Value 1 is true, for I (INTEGER).", told)
        self.assertIn("\nTest 2 stands in row 4 of its table.\n", told)


if __name__ == "__main__":
    unittest.main()
