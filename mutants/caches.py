"""The user's folder for caches: what is kept there can be made again.

An answer of a program is kept under the digest of the program, of its words and of the job. Its own digest stands in
front of it, so an answer that is damaged counts as none.
"""

import hashlib
import os
from collections.abc import Sequence
from functools import cache
from itertools import accumulate
from pathlib import Path

from mutants.files import written

PACKAGE = Path(__file__).resolve().parent


@cache
def tool_digest() -> str:
    """The digest of this package: what another version of it has kept is made again."""
    digest = hashlib.sha256()
    for path in sorted(each for each in PACKAGE.rglob("*.*") if each.suffix in (".py", ".txt", ".css", ".js")):
        digest.update(path.read_bytes() + b"\0")
    return digest.hexdigest()


def caches_folder(kind: str) -> Path | None:
    """The folder for things of a kind; None where this user has no folder for caches."""
    try:
        caches = os.environ.get("XDG_CACHE_HOME") or Path.home() / ".cache"
    except RuntimeError:
        return None
    return Path(caches, "mutants", kind).absolute()


def keep(path: Path, data: bytes, most: int, most_bytes: int = 1 << 30) -> None:
    """Keeps a file, and in its folder only the newest files: at most `most`, of `most_bytes` bytes in all. What can not
    be kept is made again another time."""
    try:
        path.parent.mkdir(parents=True, exist_ok=True)
        written(path, data)
        every = [(each.stat().st_mtime, each.stat().st_size, each) for each in path.parent.iterdir()]
        ends = accumulate(size for _, size, _ in sorted(every, reverse=True))
        for place, ((_, _, old), end) in enumerate(zip(sorted(every, reverse=True), ends)):
            if place >= most or end > most_bytes:
                old.unlink(missing_ok=True)
    except OSError:
        pass


def digest_of(*parts: bytes) -> str:
    digest = hashlib.sha256()
    for part in parts:
        digest.update(b"%d " % len(part) + part)
    return digest.hexdigest()


@cache
def digest_of_program(program: str) -> str:
    return digest_of(Path(program).read_bytes())


def path_of_answer(kind: str, program: str, words: Sequence[str], job: bytes) -> Path | None:
    """The path under which an answer is kept; None where nothing can be kept."""
    folder = caches_folder(kind)
    try:
        made_of = digest_of_program(program).encode(), " ".join(words).encode(), job
        return folder / digest_of(*made_of) if folder else None
    except OSError:
        return None


def kept_answer(path: Path | None) -> str | None:
    """The answer that is kept; None where there is none, or it is damaged."""
    try:
        digest, _, text = path.read_bytes().partition(b"\n") if path else (b"", b"", b"")
    except OSError:
        return None
    return text.decode() if digest.decode("ascii", "replace") == digest_of(text) else None


def keep_answer(path: Path | None, text: str, most: int, most_bytes: int) -> None:
    if path:
        keep(path, f"{digest_of(text.encode())}\n{text}".encode(), most, most_bytes)
