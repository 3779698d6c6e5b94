"""A program as it was at a revision of git."""

import subprocess
from pathlib import Path

from mutants.statuses import SUCCESS


def bytes_at(program: Path, revision: str) -> bytes:
    """The bytes of a file at a revision. Nothing is fetched, and no filters of the repository are run."""
    words = ["git", "-c", "protocol.allow=never", "-C", str(program.resolve().parent), "cat-file", "blob"]
    if revision.startswith("-") or ":" in revision:
        raise ValueError(f"--since {revision}: it is no revision")
    try:
        ended = subprocess.run([*words, f"{revision}:./{program.name}"], capture_output=True)
    except FileNotFoundError:
        raise ValueError("git is not found, which --since asks for the old version") from None
    if ended.returncode != SUCCESS:
        lines = ended.stderr.decode(errors="replace").strip().splitlines()
        raise ValueError(f"--since {revision}: {lines[-1] if lines else 'git has no such version'}")
    return ended.stdout
