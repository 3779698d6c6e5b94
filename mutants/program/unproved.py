"""Unproved builds of the programs, for a first look. They are made once, kept, and called unproved wherever they are
used.

A build is kept in the user's folder for caches, with a digest of the sources from which it was built. Under its name
there is a script, which says on standard error that the build is unproved and then runs it, so each call is marked,
whoever makes it. Where the package lies beside other sources, the build is not used. Where it lies beside no sources,
as when it was installed, there is nothing to compare with: the build is used, and named by the digest.
"""

import hashlib
import os
import shlex
from pathlib import Path

from mutants.caches import caches_folder
from mutants.program.programs import EQUIVALENTS, MOTHRA, PROGRAMS
from mutants.program.released import remark_on_release
from mutants.program.roots import ROOT
from mutants.program.trying import build

CRATES = ROOT / "crates"
# What is said wherever a build is used; and the beginning of each line that the script writes.
SAID_OF = "an unproved build of {}: nothing that it says is proved"
SAID = SAID_OF.format(MOTHRA.name)
MARK = "unproved build: "
# How many digits of the digest are shown.
DIGITS = 12
# A job on which a build is tried, and for each program the words and what it has to write.
JOB = b'{"source": "      SUBROUTINE ADD(I,J,K)\\n      K=I+J\\n      END\\n"}'
PRINTED = b"      SUBROUTINE ADD(I,J,K)\n      K=I+J\n      END\n"
TRIALS = {MOTHRA.name: (["print"], PRINTED), EQUIVALENTS.name: (["--ops", "SDL"], b"PROVED 0 OF 1\n")}
SCRIPT = """\
#!/bin/sh
# Made by mutants unproved: what the program beside this file writes is proved by nothing, and each call says so.
echo {notice} >&2
exec {program} "$@"
"""


def kept_path(name: str = MOTHRA.name) -> Path:
    """The path of the script for the build of a program, whether it is there or not."""
    # Below the null device there is nothing.
    return caches_folder(f"unproved-{name}") or Path(os.devnull, f"unproved-{name}")


def binary_path(name: str = MOTHRA.name) -> Path:
    return kept_path(name).with_name(f"unproved-{name}.binary")


def digest_path(name: str = MOTHRA.name) -> Path:
    return kept_path(name).with_name(f"unproved-{name}.sources")


def digest_of(crates: Path) -> str:
    """The digest of all sources of a build."""
    digest = hashlib.sha256()
    for path in sorted([*crates.glob("*/src/**/*.rt"), crates.parent / "crates.txt"]):
        data = path.read_bytes()
        digest.update(f"{path.relative_to(crates.parent)} {len(data)}\n".encode() + data)
    return digest.hexdigest()


def kept_digest(name: str = MOTHRA.name) -> str | None:
    """The digest of the sources of the build that is kept; None where there is no whole build."""
    there = [path for path in (kept_path(name), binary_path(name)) if os.access(path, os.X_OK)]
    digest = digest_path(name)
    return digest.read_text().strip() if len(there) == 2 and digest.exists() else None


def find_unproved(name: str = MOTHRA.name) -> str | None:
    """The path of a build, where a whole one is kept and no other sources lie beside the package."""
    digest = kept_digest(name)
    if digest is None or CRATES.is_dir() and digest != digest_of(CRATES):
        return None
    return str(kept_path(name))


def is_unproved(program: str, name: str = MOTHRA.name) -> bool:
    """Whether a program is the unproved build of this name, or the script that calls it."""
    kept = [path for path in (kept_path(name), binary_path(name)) if path.exists()]
    return os.path.exists(program) and any(os.path.samefile(program, path) for path in kept)


def said(name: str = MOTHRA.name) -> str:
    """What is said of the build that is kept."""
    digest, text = kept_digest(name), SAID_OF.format(name)
    if digest is None:
        return text
    compared = "" if CRATES.is_dir() else ", and no sources are here to compare with"
    return f"{text} (built from the sources with the digest {digest[:DIGITS]}{compared})"


def remark_on(program: str) -> str:
    """One sentence for all that is written with an unproved build, or with a program of a release; else no text."""
    return f"This is of {said()}." if is_unproved(program) else remark_on_release(program)


def remark_on_proofs(program: str) -> str:
    """One sentence for all that is written with proofs of the program equivalents, where this is an unproved build or
    one of a release."""
    name = EQUIVALENTS.name
    return f"What is called proved here is of {said(name)}." if is_unproved(program, name) else ""


def remove(name: str = MOTHRA.name) -> None:
    for path in (digest_path(name), kept_path(name), binary_path(name)):
        path.unlink(missing_ok=True)


def script_of(digest: str, name: str) -> str:
    """The script that marks each call of a build."""
    notice = f"{MARK}nothing that this {name} says is proved (sources {digest[:DIGITS]})"
    return SCRIPT.format(notice=shlex.quote(notice), program=shlex.quote(str(binary_path(name))))


def programs_here() -> list[str]:
    """The programs that the repository has; mothra where there is no repository, so that this is reported."""
    return [name for name in PROGRAMS if (CRATES / name).is_dir()] or [MOTHRA.name]


def make(name: str = MOTHRA.name) -> Path:
    """Makes a build and keeps it. The digest comes last: a build without one is not used."""
    if not CRATES.is_dir():
        raise ValueError("there are no crates beside the package: an unproved build is made in the repository")
    if not (CRATES / name).is_dir():
        raise ValueError(f"{CRATES} has no program {name}")
    if not caches_folder(name):
        raise ValueError("this user has no folder for caches: XDG_CACHE_HOME names one")
    kept_path(name).parent.mkdir(parents=True, exist_ok=True)
    remove(name)
    words, wanted = TRIALS[name]
    digest, answer = digest_of(CRATES), build(CRATES / name, binary_path(name), ["--", *words], JOB)
    if answer != wanted:
        remove(name)
        does = "print a job" if name == MOTHRA.name else "answer a job"
        raise ValueError(f"rt try built a program that does not {does}: {answer[:80]!r}")
    kept_path(name).write_text(script_of(digest, name))
    kept_path(name).chmod(0o755)
    digest_path(name).write_text(digest)
    return kept_path(name)
