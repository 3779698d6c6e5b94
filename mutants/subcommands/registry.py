"""The subcommands by name. A new one is a line here, and a module of its name beside this one.

A module has `add_words(parser)`, which adds its words to a parser, and `run(given, name)`, which does what they say and
gives the exit status; its text of help is that of the module. It is imported only where it is asked for.
"""

from __future__ import annotations

import argparse
from importlib import import_module
from typing import NamedTuple, Protocol, cast


class Module(Protocol):
    """What the module of a subcommand has."""

    __doc__: str | None

    def add_words(self, parser: argparse.ArgumentParser) -> None: ...

    def run(self, given: argparse.Namespace, name: str) -> int: ...


class Subcommand(NamedTuple):
    name: str
    line: str

    def module(self) -> Module:
        return cast(Module, import_module(f"mutants.subcommands.{self.name}"))


SUBCOMMANDS = [
    Subcommand("check", "run the mutants of a program on its tests: score, survivors, page"),
    Subcommand("suggest", "suggest tests that kill the survivors of a suite"),
    Subcommand("approve", "fill the column expect of a table with what the program does now"),
    Subcommand("job", "make a job of a program and a table of its tests"),
    Subcommand("declare", "declare mutants equivalent, tied to the texts that this is said of"),
    Subcommand("compare", "tell what is killed, and what survives, since an earlier check"),
    Subcommand("page", "make one HTML file of what mothra says of a job"),
    Subcommand("explain", "say in words what a fault means for a job"),
    Subcommand("course", "run the suites of a class, and make a table and a page of them"),
    Subcommand("completion", "write what completes words in bash, zsh or fish"),
    Subcommand("unproved", "make unproved builds of the programs, for a first look"),
]
