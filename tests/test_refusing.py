"""The tool that makes memory fail, with small programs in the place of mothra."""

import io
import struct
import tempfile
import unittest
from argparse import Namespace
from contextlib import redirect_stderr, redirect_stdout
from pathlib import Path
from types import ModuleType
from unittest import mock

import running  # noqa: F401
from developing import refused_memory
from developing.robustness import calls
from developing.robustness.calls import Ended, answer_of, called
from developing.robustness.refusing import FROM_THEN_ON, MARK, STOPS, Refusing, places_in
from mutants.statuses import FAULT, SUCCESS

# It asks for memory three times. What it does at which of them stands behind it, as in a program that rt builds.
ASKS = """\
#!/bin/sh
set -- $(tail -c 20 "$0" | od -An -v -tu1)
number=$(($3 + 256 * ($4 + 256 * ($5 + 256 * $6))))
[ $number -gt 3 ] && { echo TEXT; exit 0; }
[ $9 = 204 ] && kill -TRAP $$
echo FAULT CODE
exit 1
"""
PLACE = b"\x48\x3d" + MARK.to_bytes(4, "little") + b"\x75\x00\x31\xc0"
COMPARES = b"\x48\x3d" + struct.pack("<i", MARK) + b"\x75\x0c\x31\xc0"


class Answers(unittest.TestCase):
    def test_tells_how_a_call_ended(self) -> None:
        rows = {
            (b"FAULT J2\n", 1): "J2", (b"FAULT C2 X\n", 1): "C2", (b"", 1): "nothing", (b"END\n", 0): "report",
            (b"error\n", 2): "words",
        }  # fmt: skip
        for (text, status), want in rows.items():
            self.assertEqual(answer_of(Ended(text, status)), want)

    def test_tells_answers_that_are_none(self) -> None:
        rows = [(b"", -11), (b"FAULT J2\n", 0 - 6), (b"REPORT 2\n", 1), (b"FAULT J2\nEND\n", 1), (b"END", 0), (b"", 0)]
        for text, status in rows:
            self.assertTrue(answer_of(Ended(text, status)).startswith("BROKEN"), (text, status))

    def test_ends_a_call_that_takes_too_long(self) -> None:
        with mock.patch.object(calls, "MOST_SECONDS", 0.1):
            self.assertEqual(called(["sleep", "9"], b"").status, -9)

    def test_hands_over_the_bytes(self) -> None:
        self.assertEqual(called(["cat"], b"a\0b").text, b"a\0b")


class Tool(unittest.TestCase):
    def call(self, module: ModuleType, **given: object) -> tuple[int, list[str]]:
        out = io.StringIO()
        with redirect_stdout(out), redirect_stderr(io.StringIO()):
            status = module.run(Namespace(jobs=2, **given), "tools/it")
        return status, out.getvalue().splitlines()


class RefusedMemory(Tool):
    def sweep(self, code: str) -> tuple[int, list[str]]:
        def build(crate: Path, kept: Path, words: object, job: bytes) -> None:
            kept.write_bytes(ASKS.replace("CODE", code).encode() + 2 * PLACE)

        with mock.patch.object(refused_memory, "build_refusing", build):
            return self.call(refused_memory, crates=["mothra"])

    def test_tells_each_call_and_round(self) -> None:
        status, lines = self.sweep("J1")
        wanted = []
        for words in ("print", "exec --test 1", "list"):
            wanted += [
                f"mothra {words}: 3 allocations, each refused {how}: J1 3" for how in ("alone", "with all behind it")
            ]
        told = "mothra run: 11 allocations, each refused"
        wanted += [f"{told} {how}: J1 3, undisturbed 8" for how in ("alone", "with all behind it")]
        self.assertEqual((status, lines), (SUCCESS, wanted))

    def test_an_answer_that_may_not_be_is_told_with_its_allocation(self) -> None:
        status, lines = self.sweep("C1")
        self.assertEqual(status, FAULT)
        self.assertEqual(lines[1], "  allocation 1: BROKEN: C1")
        self.assertIn("mothra run: 11 allocations, each refused alone: C1 3, undisturbed 8", lines)


class Refused(unittest.TestCase):
    def test_finds_two_places_or_none(self) -> None:
        self.assertEqual(places_in(b"--" + COMPARES + b"-" + COMPARES), [2, 3 + len(COMPARES)])
        for program in (b"", COMPARES, COMPARES * 3):
            self.assertRaises(ValueError, places_in, program)

    def test_changes_the_number_in_both(self) -> None:
        with tempfile.TemporaryDirectory() as folder:
            built, copy = Path(folder, "built"), Path(folder, "copy")
            built.write_bytes(COMPARES * 2)
            program = Refusing(built, copy)
            program.refuse(7)
            self.assertEqual(copy.read_bytes(), COMPARES.replace(struct.pack("<i", MARK), b"\7\0\0\0") * 2)
            program.refuse(8, FROM_THEN_ON, STOPS)
            self.assertEqual(copy.read_bytes(), b"\x48\x3d\x08\0\0\0\x72\x0c\xcc\xcc" * 2)
