"""The command mutants: its words, and the subcommand that they name.

    mutants [--help] [--version] SUBCOMMAND ..

From a program in FORTRAN 77 and its tests to what the tests kill, with the proved program mothra.
"""

import argparse
import sys
from collections.abc import Callable, Sequence
from typing import Any

from mutants import statuses
from mutants.ending import run_tool
from mutants.subcommands.registry import SUBCOMMANDS, Subcommand
from mutants.words import add_version, text_of_help, with_whole_lists

NAME = "mutants"
RAW = argparse.RawDescriptionHelpFormatter


class Parser(argparse.ArgumentParser):
    """A parser that takes a file that may be left out in any place: PROGRAM.f --ops ROR TESTS."""

    is_within = False

    def parse_known_args(self, args: Any = None, namespace: Any = None) -> Any:
        kinds = {action.nargs for action in self._get_positional_actions()}
        if self.is_within or "?" not in kinds or not kinds <= {None, "?"}:
            return super().parse_known_args(args, namespace)
        self.is_within = True
        try:
            return self.parse_known_intermixed_args(args, namespace)
        finally:
            self.is_within = False


def add_subcommand(add: Callable[..., argparse.ArgumentParser], command: Subcommand, is_asked: bool) -> None:
    """The parser of a subcommand; that of one which is not asked for has its name alone."""
    if not is_asked:
        add(command.name, help=command.line)
        return
    module = command.module()
    parser = add(
        command.name,
        help=command.line,
        description=text_of_help(module.__doc__),
        epilog=statuses.meanings(),
        formatter_class=RAW,
    )
    add_version(parser)
    module.add_words(parser)
    parser.set_defaults(run=module.run, name=f"{NAME} {command.name}")


def asked_name(words: Sequence[str]) -> str | None:
    """The first word that is no option: the name of the subcommand, where there is one of it."""
    return next((word for word in words if not word.startswith("-")), None)


def parser_for(words: Sequence[str]) -> argparse.ArgumentParser:
    """The parser of the command, for these words."""
    usage, description = f"{NAME} [--help] [--version] SUBCOMMAND ..", text_of_help(__doc__).rpartition("\n\n")[2]
    parser = argparse.ArgumentParser(
        prog=NAME, usage=usage, description=description, epilog=statuses.meanings(), formatter_class=RAW
    )
    add_version(parser)
    kind = parser.add_subparsers(metavar="SUBCOMMAND", required=True, prog=NAME, parser_class=Parser)
    asked = asked_name(words)
    for command in SUBCOMMANDS:
        add_subcommand(kind.add_parser, command, command.name == asked)
    return parser


def main(words: Sequence[str] | None = None) -> int:
    """Does what the words say, and gives the exit status."""
    given_words = with_whole_lists(sys.argv[1:] if words is None else words)
    # A fault has the name of the subcommand in front, and words that are refused that of the parser.
    named = asked_name(given_words)
    name = f"{NAME} {named}" if named else NAME

    def do() -> int:
        given = parser_for(given_words).parse_args(given_words)
        status: int = given.run(given, given.name)
        return status

    return run_tool(name, do)
