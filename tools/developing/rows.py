"""Answer the table crates/rows/stdin, and show each block whose answers are not those of crates/rows/stdout.

    tools/rows [--unproved|--program PATH] [--accept]

A block that differs is told with its title. Below it stand the rows that differ and what is around them: behind "-" a
line that is wanted, behind "+" one that came. --unproved makes an unproved build for this call. --accept writes the
answers into stdout: a person has read them before. The exit status is 1 where an answer is not the wanted one.
"""

import argparse
import subprocess
import tempfile
from difflib import unified_diff
from pathlib import Path

from mutants.program.roots import ROOT
from mutants.program.trying import build
from mutants.statuses import FAULT, SUCCESS

CRATE = ROOT / "crates" / "rows"
TABLE, WANTED, BUILT = CRATE / "stdin", CRATE / "stdout", CRATE / "out" / "rows"
MISSING = "rows is not built: (cd crates/rows && rt run) proves and builds it; --unproved builds it for one call"
# How many lines stand around one that differs: the row of an answer, and its words.
AROUND = 2


def blocks_of(answers: str) -> dict[str, list[str]]:
    """The lines below each title."""
    blocks: dict[str, list[str]] = {}
    title = ""
    for line in filter(None, answers.split("\n")):
        title = line if line.startswith("#") else title
        blocks.setdefault(title, []).append(line)
    return blocks


def differences(wanted: list[str], got: list[str]) -> list[str]:
    """The lines of a block that differ, with the lines around them; none where all are the same."""
    lines = list(unified_diff(wanted, got, lineterm="", n=AROUND))[2:]
    return [line for line in lines if not line.startswith("@@")]


def answers_of(program: Path) -> bytes:
    """What the program writes for the table."""
    try:
        ended = subprocess.run([program], input=TABLE.read_bytes(), capture_output=True)
    except OSError as fault:
        raise ValueError(MISSING if program == BUILT else f"{program}: {fault.strerror}") from None
    if ended.returncode != 0:
        raise ValueError(f"{program} ended with {ended.returncode}: {ended.stderr.decode(errors='replace')[-500:]}")
    return ended.stdout


def unproved_answers() -> bytes:
    """What a build of rt try writes for the table."""
    with tempfile.TemporaryDirectory() as folder:
        build(CRATE, program := Path(folder, "rows"), [])
        return answers_of(program)


def add_words(parser: argparse.ArgumentParser) -> None:
    parser.add_argument("--program", metavar="PATH", type=Path, default=BUILT, help="another build of the program")
    parser.add_argument("--unproved", action="store_true", help="an unproved build, made for this call")
    parser.add_argument("--accept", action="store_true", help="write the answers into stdout, once a person read them")


def run(given: argparse.Namespace, name: str) -> int:
    answers = unproved_answers() if given.unproved else answers_of(given.program)
    wanted, got = blocks_of(WANTED.read_text("utf-8")), blocks_of(answers.decode())
    differing = 0
    for title in {**got, **wanted}:
        if lines := differences(wanted.get(title, []), got.get(title, [])):
            print(title, *lines, "", sep="\n")
            differing += 1
    if given.accept:
        WANTED.write_bytes(answers)
    print(f"{len(got)} blocks, {differing} {'accepted' if given.accept else 'differ'}")
    return FAULT if differing and not given.accept else SUCCESS
