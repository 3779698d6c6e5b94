"""What searches of whole boxes of rows found out about the mutants of a program, kept in the user's folder for caches.

It holds for a source under a limit on steps, whatever the tests are, so pages show it until the program changes. A
later search adds to it.
"""

import json
from collections.abc import Mapping
from pathlib import Path
from typing import NamedTuple

from mutants.caches import keep_answer, kept_answer, path_of_answer

KIND, MOST, MOST_BYTES = "boxes", 1_000, 1 << 25
NO_PROOF = "That is more than a hint at equivalence and less than a proof: a row outside of the box may kill it."


def boxed_text(count: int) -> str:
    """A sentence: no row of a box kills `count` of the survivors."""
    return f"Of the survivors {count} {'is' if count == 1 else 'are'} killed by no row of a box that was searched."


class Searched(NamedTuple):
    """A box all rows of which were tried, how many these are, and the first that kills the mutant; no text where none
    does."""

    box: str
    rows: int
    row: str = ""

    @property
    def text(self) -> str:
        return f"a row that kills it: {self.row}" if self.row else f"no row of this box kills it: {self.box}"


def path_for(program: str, source: str, steps: int) -> Path | None:
    return path_of_answer(KIND, program, ["--steps", str(steps)], source.encode())


def kept_boxes(program: str, source: str, steps: int) -> dict[str, Searched]:
    """What is known of the mutants of a source, by their names."""
    text = kept_answer(path_for(program, source, steps))
    return {name: Searched(*each) for name, each in json.loads(text or "{}").items()}


def keep_boxes(program: str, source: str, steps: int, results: Mapping[str, Searched]) -> bool:
    """Keeps what a search found: for each mutant a row that kills it, else the largest box. False where there is no
    folder to keep it in."""
    path, known = path_for(program, source, steps), kept_boxes(program, source, steps)
    for name, result in results.items():
        known[name] = max(result, known.get(name, result), key=lambda each: (bool(each.row), each.rows))
    keep_answer(path, json.dumps(known), MOST, MOST_BYTES)
    return path is not None
