"""Rows asked about: on which of them the program ends, and which of the survivors they kill."""

import re
from collections.abc import Mapping, Sequence

from mutants.checks.checking import STEPS, Checked
from mutants.checks.running import Means, words_of
from mutants.program.calling import Fault, answer, read_as
from mutants.program.many import processors
from mutants.suggestions.clock import Clock
from mutants.suggestions.failing import guarded, more_steps
from mutants.suggestions.shapes import Row, test_of
from mutants.texts.batches import batch_text, batches
from mutants.texts.jobs import Job
from mutants.texts.lines import Mutant
from mutants.texts.reports import Report, read_report

# Words with which an operator has at most one mutant. Few programs have a mutant of DSA, so only the program is run.
FIRST_ALONE = ("--every", "1048575")
MOST_STEPS = 1_000_000
# The most threads of a run.
THREADS = 32


def masks_of(report: Report, numbers: Mapping[tuple[str, int], int]) -> list[int]:
    """For each test of a report the mutants that it kills, as bits by their numbers. Mutants without a number are left
    out."""
    masks = [0] * report.tests
    for row in report.rows:
        number = numbers.get((row.op, row.place))
        at = row.bits.find("1") if number is not None else -1
        while number is not None and at >= 0:
            masks[at] |= 1 << number
            at = row.bits.find("1", at + 1)
    return masks


class Asker:
    """Asks which of some mutants rows kill. The verdicts are those of mothra alone."""

    def __init__(self, checked: Checked, mutants: Sequence[Mutant], means: Means, clock: Clock) -> None:
        self.checked, self.means, self.clock = checked, means, clock
        self.mutants = list(mutants)
        self.numbers = {(mutant.op, mutant.place): number for number, mutant in enumerate(mutants)}
        self.steps = int(means.steps or STEPS)
        self.guard: str | None = None
        self.has_guard = False
        self.calls = 0

    @property
    def whole(self) -> int:
        """All mutants that are asked about, as bits."""
        return (1 << len(self.mutants)) - 1

    def of_mask(self, mask: int) -> list[Mutant]:
        """The mutants whose bits are 1 in the mask."""
        return [mutant for number, mutant in enumerate(self.mutants) if mask >> number & 1]

    def lines(self) -> list[int]:
        """For each line with some of the mutants, these as bits."""
        masks: dict[int, int] = {}
        for number, mutant in enumerate(self.mutants):
            masks[mutant.line] = masks.get(mutant.line, 0) | 1 << number
        return list(masks.values())

    def ops_of(self, mask: int) -> list[str]:
        """The operators of the mutants whose bits are 1, in order."""
        ops = {mutant.op for mutant in self.of_mask(mask)}
        return [op for op in self.checked.whole.counts if op in ops]

    def report(self, rows: Sequence[Row], words: Sequence[str], source: str | None = None) -> Report:
        self.calls += 1
        job = batch_text(Job(self.checked.job.source if source is None else source, list(map(test_of, rows))))
        return read_as("mothra run", read_report, answer(self.means.program, words, job, self.clock.left()))

    def words(self, ops: Sequence[str], steps: int) -> list[str]:
        return words_of(self.means._replace(steps=str(steps)), ops, min(THREADS, processors()))

    def parts(self, rows: Sequence[Row]) -> list[list[Row]]:
        """The rows in parts, each of which fits into a job."""
        ends = batches(Job(self.checked.job.source, list(map(test_of, rows))))
        return [list(rows[first:last]) for first, last in ends]

    def kills(self, rows: Sequence[Row], ops: Sequence[str], steps: int) -> dict[Row, int]:
        """For each row on which the program ends within the limit, the mutants that it kills, as bits."""
        masks: dict[Row, int] = {}
        for part in self.parts(rows):
            masks.update(self.kills_of_part(part, self.words(ops, steps)))
        return masks

    def kills_of_part(self, rows: list[Row], words: Sequence[str]) -> dict[Row, int]:
        while rows:
            try:
                report = self.report(rows, words)
            except Fault as fault:
                # This fault comes before a mutant is run.
                del rows[failing_place(fault)]
            else:
                return dict(zip(rows, masks_of(report, self.numbers)))
        return {}

    def all_end(self, rows: Sequence[Row], steps: int) -> bool:
        """Whether the program ends on each of these rows within a limit."""
        try:
            for part in self.parts(rows):
                self.report(part, [*self.words(["DSA"], steps), *FIRST_ALONE])
        except Fault as fault:
            failing_place(fault)
            return False
        return True

    def steps_needed(self, rows: Sequence[Row]) -> int:
        """The least limit within which the program ends on each of these rows."""
        low, high = 1, self.steps
        while low < high:
            middle = (low + high) // 2
            low, high = (low, middle) if self.all_end(rows, middle) else (middle + 1, high)
        return low

    def ending(self, rows: Sequence[Row], steps: int) -> list[Row]:
        """Those of the rows on which the program ends within a limit, or some more, as far as one call shows it."""
        if not rows:
            return []
        if not self.has_guard:
            self.guard = guarded(self.checked.job.source, self.checked.printed, rows[0])
            self.has_guard = True
        if self.guard is None:
            return list(rows)
        words = [*self.words(["SDL"], min(MOST_STEPS, steps + more_steps(rows[0]))), *FIRST_ALONE]
        try:
            return [row for part in self.parts(rows) for row in self.let_through(part, words)]
        except Fault:
            # The made program is beyond a limit on names or elements.
            self.guard = None
            return list(rows)

    def let_through(self, rows: Sequence[Row], words: Sequence[str]) -> list[Row]:
        report = self.report(rows, words, self.guard)
        return [row for row, bit in zip(rows, report.rows[0].bits) if bit == "0"]


def failing_place(fault: Fault) -> int:
    """The place, from 0, of the test on which the program fails. Any other fault stays a fault."""
    match = re.fullmatch(r"FAULT B4 (\d+)", fault.line)
    if not match:
        raise fault
    return int(match[1]) - 1
