"""Make unproved builds of the programs mothra and equivalents, for a first look, and keep them.

    mutants unproved [--remove] [mothra|equivalents]..

A program is built by `rt try`, in a minute or two, without any proof, and kept in the user's folder for caches; where
none is named, both are. Where no other program is found the subcommands take these, and say so on standard error and in
what they write. They can be called by themselves too: each call writes a line `unproved build: ..` to standard error.
They are not taken when the sources of the programs have changed: call this again. Where the command is installed away
from the sources they are taken, and named by the digest of those that they were built from. A proved program, once
there is one, comes first.
"""

import argparse
import sys

from mutants.program.programs import PROGRAMS
from mutants.program.unproved import make, programs_here, remove, said
from mutants.progress import Progress
from mutants.statuses import SUCCESS


def add_words(parser: argparse.ArgumentParser) -> None:
    parser.add_argument("programs", metavar="PROGRAM", nargs="*", help="which, else both")
    parser.add_argument("--remove", action="store_true", help="remove the builds that are kept")


def names_of(given: argparse.Namespace) -> list[str]:
    """The programs that are asked for; where none is named, those that the repository has."""
    for word in given.programs:
        if word not in PROGRAMS:
            raise ValueError(f"{word} is neither of the programs {' and '.join(PROGRAMS)}")
    if given.programs or given.remove:
        return list(dict.fromkeys(given.programs or PROGRAMS))
    return programs_here()


def run(given: argparse.Namespace, name: str) -> int:
    for program in names_of(given):
        if given.remove:
            remove(program)
            continue
        progress = Progress(name)
        progress.tell(f"rt try builds {program} without any proof, in a minute or two")
        try:
            path = make(program)
        finally:
            progress.end()
        sys.stdout.write(f"{path}: {said(program)}\n")
        sys.stdout.flush()
    return SUCCESS
