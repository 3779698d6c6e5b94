"""A job of any length as jobs that mothra takes: each has the whole program and a batch of the tests. Also operators in
groups, each worth a call."""

import json
from collections.abc import Iterator, Mapping, Sequence
from typing import Any

from mutants.texts.jobs import Job

# The limits of a job: tests, and bytes.
MOST_TESTS, MOST_BYTES = 256, 1_048_576
# How many bytes JSON needs beside the source, the tests and the declared mutants.
FRAME = 64


def batch_text(job: Job, first: int = 0, last: int | None = None) -> bytes:
    """The job with its tests from place `first` on, up to `last`."""
    part: dict[str, object] = {"source": job.source, "suite": job.suite[first:last]}
    return json.dumps({**part, "equivalent": job.equivalent} if job.equivalent else part).encode()


def ends_of(sizes: Sequence[int], room: int) -> Iterator[int]:
    """Where the batches end: each has as many tests as a job may have, and as fit into it."""
    begin, used = 0, 0
    for place, size in enumerate(sizes):
        if place > begin and (place - begin == MOST_TESTS or used + size > room):
            yield place
            begin, used = place, 0
        used += size
    yield len(sizes)


def size_of(value: Any) -> int:
    """How many bytes a value takes in a list."""
    return len(json.dumps(value)) + 2


def batches(job: Job) -> list[tuple[int, int]]:
    """The batches of the tests of a job: the place of the first test of each, and the place after its last test.
    There is at least one batch."""
    room = MOST_BYTES - FRAME - size_of(job.source) - size_of(job.equivalent)
    ends = list(ends_of([size_of(test) for test in job.suite], room))
    return list(zip([0, *ends], ends))


def groups_of(totals: Mapping[str, int], least: int) -> list[list[str]]:
    """The operators in their order, in groups with at least `least` mutants each, except the last one."""
    groups: list[list[str]] = [[]]
    count = 0
    for op, total in totals.items():
        if count >= least:
            groups.append([])
            count = 0
        groups[-1].append(op)
        count += total
    return groups
