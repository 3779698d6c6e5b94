"""Where the programs mothra and equivalents are. No other module looks for them."""

import argparse
import os
import shutil
import sys
from pathlib import Path

from mutants.program.programs import EQUIVALENTS, MOTHRA, Program
from mutants.program.released import released_path
from mutants.program.roots import ROOT
from mutants.program.unproved import find_unproved, is_unproved, said

BUILT = ROOT / "crates" / "mothra" / "out" / "mothra"
BUILT_EQUIVALENTS = ROOT / "crates" / "equivalents" / "out" / "equivalents"

# What is said where there is no program: how to get one, and how long that takes.
MISSING = f"""\
the program mothra is not found: {MOTHRA.option} and {MOTHRA.variable} name none, none is built here, and the path has\
 none.
  Prove and build it, from the top of the repository; from nothing that takes most of an hour, later seconds:
    (cd crates/mothra && rt run -- run < ../../examples/triangle.json)
  For a first look make an unproved build once, in a minute or two; it is kept, and all that it says is unproved:
    bin/mutants unproved"""


class NoProgram(ValueError):
    """No program mothra was found."""


def named_program(word: str, where: str) -> str:
    """The path of the program that a word names, which is a path or a name to be found on PATH."""
    path = shutil.which(word)
    if not path:
        raise ValueError(f"there is no program {word}, which {where} names")
    return os.path.abspath(path)


def searched_program(kind: Program, word: str | None, built: Path) -> str | None:
    """The first program of these: that of the option, that of the environment, that of the repository, that of a
    release beside the package, one on PATH, an unproved build.

    That it is an unproved build is said on standard error.
    """
    if word is not None:
        path: str | None = named_program(word, kind.option)
    elif os.environ.get(kind.variable):
        path = named_program(os.environ[kind.variable], kind.variable)
    elif os.access(built, os.X_OK):
        path = str(built)
    else:
        path = released_path(kind.name) or shutil.which(kind.name) or find_unproved(kind.name)
    if path and is_unproved(path, kind.name):
        sys.stderr.write(f"{os.path.abspath(path)}: {said(kind.name)}\n")
    return os.path.abspath(path) if path else None


def find_program(word: str | None = None) -> str:
    """The path of the program mothra."""
    path = searched_program(MOTHRA, word, BUILT)
    if not path:
        raise NoProgram(MISSING)
    return path


def find_program_if_any(word: str | None) -> str | None:
    """The path of the program, or None where none is named and none is found."""
    try:
        return find_program(word)
    except NoProgram:
        return None


def find_equivalents(word: str | None) -> str | None:
    """The path of the program equivalents, or None where none is named and none is found."""
    return searched_program(EQUIVALENTS, word, BUILT_EQUIVALENTS)


def add_mothra_option(parser: argparse.ArgumentParser) -> None:
    parser.add_argument(MOTHRA.option, metavar="PATH", help=MOTHRA.help)


def add_equivalents_option(parser: argparse.ArgumentParser) -> None:
    parser.add_argument(EQUIVALENTS.option, metavar="PATH", help=EQUIVALENTS.help)
