"""Jobs as mothra takes them: a source, a suite of tests, and mutants that are declared equivalent."""

import json
from collections.abc import Sequence
from typing import Any, NamedTuple

# A value of a test is a number, a truth value or a list of one kind; but what is read from a job may be anything.
Value = int | list[int]


class Job(NamedTuple):
    source: str
    suite: list[Any]
    equivalent: list[Any] = []


def read_job(text: bytes) -> Job:
    """A job in JSON, given as bytes: its source, its suite, and what it declares equivalent."""
    try:
        job = json.loads(text.decode("utf-8-sig"))
    except (ValueError, RecursionError):
        raise ValueError("it is no text in JSON") from None
    if not isinstance(job, dict):
        raise ValueError("it is no job: there is no JSON object at its top")
    if not isinstance(job.get("source"), str):
        raise ValueError("it is no job: its key source is absent or no text")
    for key in ("suite", "equivalent"):
        if not isinstance(job.get(key, []), list):
            raise ValueError(f"it is no job: its key {key} has no list")
    return Job(job["source"], job.get("suite", []), job.get("equivalent", []))


def declared_text(text: bytes, names: Sequence[str]) -> bytes:
    """The text of a job with these mutants declared beside its own; the same bytes where there are none."""
    if not names:
        return text
    job = json.loads(text.decode("utf-8-sig"))
    return json.dumps({**job, "equivalent": [*job.get("equivalent", []), *names]}).encode()
