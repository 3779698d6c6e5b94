"""The programs that these tests run, and how the command is called with them: no other module here says it."""

import os
import subprocess
import sys
from pathlib import Path

ROOT = Path(__file__).resolve().parent.parent.parent
MOTHRA = os.environ.get("MOTHRA") or str(ROOT / "crates" / "mothra" / "out" / "mothra")
EQUIVALENTS = os.environ.get("EQUIVALENTS") or str(ROOT / "crates" / "equivalents" / "out" / "equivalents")
sys.path.append(str(ROOT / "tests"))

import running  # noqa: E402
from mutants.subcommands.completion import options_of  # noqa: E402
from mutants.subcommands.registry import SUBCOMMANDS  # noqa: E402

# Where no word says otherwise: the subroutine LEAST has sixteen mutants of these.
OPS = "ROR,RSR,SAN,SDL"
OPTIONS = {command.name: {option.word for option in options_of(command)} for command in SUBCOMMANDS}


def mutants(
    command: str,
    *words: object,
    program: object = MOTHRA,
    proofs: object = None,
    ops: str = OPS,
    path: Path | None = None,
    given: bytes = b"",
) -> running.Ended:
    """What comes of a subcommand that calls them; `proofs` is the program equivalents, and without it none is asked."""
    named = {word.partition("=")[0] for word in map(str, words)}
    asked = ["--mothra", program]
    if "--no-proofs" in OPTIONS[command] - named:
        asked += ["--equivalents", proofs] if proofs else ["--no-proofs"]
    if {"--no-proofs", "--ops"} <= OPTIONS[command] and ops and not named & {"--ops", "--except"}:
        asked += ["--ops", ops]
    return running.run(command, *asked, *words, path=path, given=given)


def said(command: str, job: bytes, *words: str) -> str:
    """What mothra writes for these words and a job."""
    return subprocess.run([MOTHRA, command, *words], input=job, capture_output=True).stdout.decode()
