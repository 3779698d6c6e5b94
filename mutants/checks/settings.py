"""The options of a check that a file beside the program has: mutants.ini, or mutants.toml, its section [mutants] and
the one of the program.

An option has the name that it has on the command line, without the hyphens in front. What the command line says comes
first. Names of files are relative to the folder of the file, and files that are written lie in that folder. The file
may come with a program from anywhere, so it may name neither a machine nor a program that is called.
"""

import argparse
import difflib
from collections.abc import Callable, Collection, Iterable, Mapping
from pathlib import Path
from typing import NoReturn

from mutants.checks.sections import INI, file_in, read_sections
from mutants.program.calling import naming
from mutants.program.programs import PROGRAMS

AddOptions = Callable[[argparse.ArgumentParser], None]
# What a file may set, and which of these are files that are written.
OUTPUTS = ("page", "report", "json", "csv", "junit", "markdown", "sarif")
KEYS = frozenset(
    "ops except lines changed unit size expand-tabs equivalent undeclared steps workers jobs no-proofs anew"
    " fail-under expect show-proved no-page top all baseline".split()
).union(OUTPUTS)
# What the subcommands that do not check take from it: how a program is read, and what is declared and proved.
READING = ("tests", "unit", "size", "expand_tabs", "equivalent", "undeclared", "no_proofs", "steps", "workers")
# The options that name programs, which no check's own options are.
CALLED = [program.option for program in PROGRAMS.values()]
# An option of the command line, and one of the file that is passed over then.
OVERRULES = (
    ("ops", "without"), ("page", "no_page"), ("no_page", "page"),
    ("equivalent", "undeclared"), ("undeclared", "equivalent"),
)  # fmt: skip
TRUE, FALSE = ("1", "yes", "true", "on"), ("0", "no", "false", "off")


class Parser(argparse.ArgumentParser):
    """A parser whose refusals are faults of a file."""

    def error(self, message: str) -> NoReturn:
        raise ValueError(message.removeprefix("argument --"))


def parser_of(add_options: AddOptions) -> Parser:
    parser = Parser(add_help=False, allow_abbrev=False)
    add_options(parser)
    return parser


def assert_allowed(key: str, value: str, folder: Path, known: Iterable[str]) -> None:
    """Refuses a key that a file may not set, and a file to be written outside its folder, also by a link."""
    if key in OUTPUTS and not (folder / value).resolve().is_relative_to(folder.resolve()):
        raise ValueError(f"{key} is {value}, and a file is written in the folder of the options alone")
    if key in KEYS:
        return
    if f"--{key}" in known or f"--{key}" in CALLED:
        raise ValueError(f"{key} is for the command line alone: a file names no machine and no program that is called")
    near = difflib.get_close_matches(key, sorted(KEYS), 1)
    raise ValueError(f"{key} is no option{f'; is {near[0]} meant?' if near else ''}")


def words_for(action: argparse.Action, option: str, value: str, folder: Path) -> list[str]:
    """The words of an option with its value in a file."""
    if action.nargs == 0:
        if value.lower() not in (*TRUE, *FALSE):
            raise ValueError(f"{option} is yes or no")
        return [option] if value.lower() in TRUE else []
    return [f"{option}={folder / value if action.type is Path else value}"]


def words_in(values: Mapping[str, str], parser: Parser, folder: Path) -> list[str]:
    actions = {option: action for action in parser._actions for option in action.option_strings}
    words = []
    for key, value in values.items():
        assert_allowed(key, value, folder, actions)
        words += words_for(actions[f"--{key}"], f"--{key}", value, folder)
    return words


def read_settings(path: Path, program: Path, add_options: AddOptions) -> argparse.Namespace:
    """The options that a file has for a program, as the command line would give them, and its tests."""
    with naming(path):
        sections, parser = read_sections(path), parser_of(add_options)
        own = sections.of(program)
        values = {**sections.common, **(own.values if own else {})}
        settings = parser.parse_args(words_in(values, parser, path.parent))
        settings.tests = own.tests if own else None
        return settings


def is_open(value: object) -> bool:
    """Whether the command line left an option open."""
    return value is None or value is False or value == []


def with_settings(
    given: argparse.Namespace, program: Path, add_options: AddOptions, names: Collection[str] | None = None
) -> Path | None:
    """Fills in what the command line left open, from the file beside a program. The result is the path of the file, if
    any. Options that the command does not have, or that are none of these names, are passed over. The names of the
    options that the file gave are kept as `from_file`."""
    path, given.from_file = file_in(program.parent), set()
    if path:
        kept = vars(read_settings(path, program, add_options))
        overruled = {other for name, other in OVERRULES if getattr(given, name, None)}
        for name, value in kept.items():
            is_asked = name in given and (names is None or name in names)
            if is_asked and is_open(getattr(given, name)) and name not in overruled:
                setattr(given, name, value)
                given.from_file.add(name)
    return path


def assert_tests(given: argparse.Namespace) -> None:
    """Refuses a call without a table of tests, on the command line or in the file."""
    if given.tests is None:
        raise ValueError(f"{given.program}: there is no table of its tests: give TESTS, or name it in {INI}")
