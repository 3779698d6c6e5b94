"""The parts of a job run side by side, on the processors here or on other machines, and their one report."""

from collections.abc import Mapping, Sequence
from typing import NamedTuple

from mutants.checks.faults import run_fault
from mutants.checks.machines import ask_machines
from mutants.checks.parts import Part, group_size, parts_of, whole_report
from mutants.program.calling import Fault, read_as
from mutants.program.many import Call, Handling, ask_many, processors
from mutants.progress import Estimate
from mutants.texts.batches import batch_text, batches, groups_of
from mutants.texts.jobs import Job
from mutants.texts.reports import Report, read_report


class Means(NamedTuple):
    """What the runs use: the program, the options of the user, how many calls are made at once, and machines with the
    name that the program has on all of them; and whether outcomes that are kept are asked for again."""

    program: str
    steps: str | None = None
    workers: str | None = None
    jobs: int | None = None
    logins: Sequence[str] = ()
    remote: str = ""
    anew: bool = False

    @property
    def step_words(self) -> list[str]:
        """The words for the limit on steps; none where the user gives none."""
        return ["--steps", self.steps] if self.steps is not None else []


def calls_at_once(means: Means) -> int:
    """How many calls are made at once here, so that there are as many threads as processors."""
    if means.jobs:
        return means.jobs
    threads = int(means.workers) if means.workers and means.workers.isdecimal() else 1
    return max(1, processors() // max(threads, 1))


def words_of(means: Means, ops: Sequence[str], threads: int) -> list[str]:
    """The words of the call of one part."""
    return ["run", "--ops", ",".join(ops), *means.step_words, "--workers", means.workers or str(threads)]


def part_calls(job: Job, means: Means, groups: Sequence[Sequence[str]], parts: Sequence[Part]) -> list[Call]:
    """The calls of the parts. A call has several threads where its part is more than the share of one processor."""
    texts = [batch_text(job, *ends) for ends in batches(job)]
    whole = sum(part.runs for part in parts)
    calls: list[Call] = []
    for part in parts:
        share = 1 if means.logins or means.jobs else processors() * part.runs // max(whole, 1)
        words = words_of(means, groups[part.group], min(32, max(1, share)))
        calls.append((words, texts[part.batch]))
    return calls


def asked_in_parts(job: Job, totals: Mapping[str, int], means: Means, name: str) -> Report:
    """The report on these operators, the same as one call would give if it took suites of any length."""
    sizes, at_once = [last - first for first, last in batches(job)], calls_at_once(means)
    groups = groups_of(totals, group_size(totals, len(sizes), at_once))
    parts = parts_of(totals, groups, sizes)
    calls, reports = part_calls(job, means, groups, parts), dict[tuple[int, int], Report]()
    estimate = Estimate(name, f"{sum(totals.values())} mutants, {len(job.suite)} tests", sum(p.runs for p in parts))

    def keep(place: int, text: str) -> None:
        part = parts[place]
        reports[part.batch, part.group] = read_as("mothra run", read_report, text)
        estimate.add(part.runs)

    try:
        if means.logins:
            ask_machines(means.remote, calls, means.jobs, means.logins, keep, estimate.tick)
        else:
            ask_many(means.program, calls, at_once, Handling(keep, estimate.tick))
    except Fault as fault:
        raise run_fault(job.equivalent, fault) from None
    finally:
        estimate.progress.end()
    return whole_report(reports)
