"""What a call made of a class is kept: where nothing has changed, the next call makes nothing."""

import hashlib
import json
from collections.abc import Sequence
from pathlib import Path
from typing import NamedTuple

from mutants.caches import tool_digest
from mutants.classes.folder import Results, Task
from mutants.files import written


class Summary(NamedTuple):
    """What is said of a class: lines, which jobs failed, the names of those with a page, and whether a score is below
    what is asked for."""

    lines: list[str]
    failed: str
    names: list[str]
    is_below: bool


def digest_of_class(tasks: Sequence[Task], results: Results, remark: str) -> str:
    """The digest of all of which the files of a class are made, beside the answers that are kept."""
    digest = hashlib.sha256(f"{tool_digest()}{remark}".encode())
    for task in tasks:
        proofs = sorted(task.proofs.spares.items()), task.proofs.left_open(), task.proofs.remark
        said = task.name, task.refusal, task.shown, task.meant, task.remarks, task.expected, proofs
        digest.update(f"{results.key(task)}{said!r}".encode("utf-8", "replace"))
    return digest.hexdigest()


class KeptClass:
    """The table and the page of a class, and beside them the digest of what they were made of and what was said."""

    def __init__(self, out: Path) -> None:
        self.out, self.path = out, out / "course.key"

    def summary(self, digest: str, results: Results) -> Summary | None:
        """What was said of a class with this digest, where all its files are there."""
        try:
            kept = json.loads(self.path.read_bytes())
            summary = Summary(kept["lines"], kept["failed"], kept["names"], kept["is_below"])
        except (OSError, ValueError, KeyError, TypeError):
            return None
        files = [self.out / "course.html", self.out / "course.csv", *(results.path(n, ".html") for n in summary.names)]
        return summary if kept["digest"] == digest and all(path.exists() for path in files) else None

    def keep(self, digest: str, summary: Summary) -> None:
        written(self.path, json.dumps({"digest": digest, **summary._asdict()}).encode())
