"""Suites of any length in a class: a job has at most 256 tests, so a long suite is run in batches."""

import re
from collections.abc import Callable, Sequence

from mutants.texts.batches import batch_text, batches
from mutants.program.parallel import text_of_answer
from mutants.texts.jobs import read_job
from mutants.texts.joining import joined_batches
from mutants.texts.report_lines import report_text
from mutants.texts.reports import read_report

# A fault that names a test by its number.
OF_TEST = re.compile(r"FAULT (B3|B4|J4) (\d+)\n?")


def whole_text(texts: Sequence[str], firsts: Sequence[int]) -> str:
    """The report of a suite, from the reports of its batches; or the first fault of these. `firsts` has the place of
    the first test of each batch."""
    failed = next((place for place, text in enumerate(texts) if not text.startswith("REPORT ")), None)
    if len(texts) == 1 or failed is not None:
        text = texts[failed or 0]
        fault = OF_TEST.fullmatch(text)
        return f"FAULT {fault[1]} {firsts[failed or 0] + int(fault[2])}\n" if fault else text
    return report_text(joined_batches([read_report(text) for text in texts]))


class Batched:
    """The batches of some jobs, in order; `keep` has the place and the whole text of each job once all have come."""

    def __init__(self, jobs: Sequence[bytes], keep: Callable[[int, str], None]) -> None:
        self.keep, self.ends = keep, [batches(read_job(job)) for job in jobs]
        self.parts = [(place, batch) for place, ends in enumerate(self.ends) for batch in range(len(ends))]
        self.texts = [self.text_of(jobs[place], place, batch) for place, batch in self.parts]
        self.come: list[dict[int, str]] = [{} for _ in jobs]

    def text_of(self, job: bytes, place: int, batch: int) -> bytes:
        ends = self.ends[place]
        return job if len(ends) == 1 else batch_text(read_job(job), *ends[batch])

    def take(self, part: int, text: str) -> None:
        """Takes the text of a batch."""
        place, batch = self.parts[part]
        come, ends = self.come[place], self.ends[place]
        come[batch] = text
        if len(come) == len(ends):
            self.keep(place, whole_text([come[each] for each in range(len(ends))], [first for first, _ in ends]))

    def take_answer(self, part: int, text: str, status: int) -> None:
        """Takes the text of a batch and its status, as another machine gives them."""
        self.take(part, text_of_answer(text, status))
