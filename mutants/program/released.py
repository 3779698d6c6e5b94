"""The programs of a release lie beside the package, with a file that says what the gate said of them.

A program with the digest in that file is called proved. Nothing is said of another program in its place.
"""

import hashlib
import json
import os
from functools import cache
from pathlib import Path

FOLDER = Path(__file__).resolve().parent.parent / "programs"
FACTS = "release.json"


@cache
def facts() -> dict[str, str]:
    """The commit, the kit, the last line of the gate, and the digest of each program; empty without a release."""
    path = FOLDER / FACTS
    return dict(json.loads(path.read_text(encoding="utf-8"))) if path.is_file() else {}


@cache
def digest_of(path: Path) -> str:
    return hashlib.sha256(path.read_bytes()).hexdigest()


def released_path(name: str) -> str | None:
    """The path of a program of the release; None where there is none, or another file is in its place."""
    path = FOLDER / name
    is_right = name in facts() and os.access(path, os.X_OK) and digest_of(path) == facts()[name]
    return str(path) if is_right else None


def remark_on_release(program: str) -> str:
    """One sentence for all that is written with a program of the release; no text for another program."""
    name = Path(program).name
    if released_path(name) != program:
        return ""
    return "The program {} is proved: commit {commit:.12}, {kit}, gate: {gate}.".format(name, **facts())
