"""Programs that `rt try --fail-alloc` builds of a crate are kept, and the number of the allocation that is refused can
be changed in them.

The number stands in such a program as the operand of two comparisons: one where memory is asked for, one where memory
is to grow. So one build serves for all numbers, where rt would build a program for each.
"""

import os
import re
import shutil
import struct
from collections.abc import Sequence
from pathlib import Path

from developing.robustness.calls import BEGINNING
from mutants.program.trying import build

# A number that stands nowhere else in the program: it is above any number of allocations of a run.
MARK = 1_000_000_007
NUMBER, JUMP, ANSWER = 2, 6, 8
# Compare the number of the call with it; jump if not equal; else answer without memory.
PLACE = re.compile(b"\x48\x3d" + re.escape(struct.pack("<i", MARK)) + b"\x75.\x31\xc0", re.S)
ONLY, FROM_THEN_ON = b"\x75", b"\x72"
REFUSES, STOPS = b"\x31\xc0", b"\xcc\xcc"


def places_in(program: bytes) -> list[int]:
    """Where a program compares the number of an allocation."""
    places = [place.start() for place in PLACE.finditer(program)]
    if len(places) != 2:
        raise ValueError(f"{len(places)} places of the program refuse memory, and not 2: the kit builds another one")
    return places


class Refusing:
    """A copy of a built program. Which allocation it refuses can be changed while it does not run."""

    def __init__(self, program: Path, copy: Path) -> None:
        shutil.copyfile(program, copy)
        os.chmod(copy, 0o700)
        self.path, self.places = str(copy), places_in(Path(copy).read_bytes())

    def refuse(self, number: int, jump: bytes = ONLY, answer: bytes = REFUSES) -> None:
        """Makes the program refuse the allocation with this number, alone or with all after it; or stop there, by a
        signal."""
        with BEGINNING, open(self.path, "r+b") as file:
            for place in self.places:
                for offset, new in ((NUMBER, struct.pack("<i", number)), (JUMP, jump), (ANSWER, answer)):
                    file.seek(place + offset)
                    file.write(new)


def build_refusing(crate: Path, kept: Path, words: Sequence[str], job: bytes = b"") -> None:
    """The program that rt try builds of a crate's folder, or of its tests, as the file `kept`."""
    build(crate, kept, ["--fail-alloc", str(MARK), *words], job, ["nice", "-n", "15"])
