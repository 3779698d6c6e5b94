"""The sections of a file of options: [mutants], which is for all programs of its folder, and one for each program that
the file names, with the keys `source` and `tests` beside the options."""

import configparser
from collections.abc import Callable, Mapping
from importlib import import_module
from pathlib import Path
from typing import NamedTuple

SECTION = "mutants"
INI, TOML = "mutants.ini", "mutants.toml"
SOURCE, TESTS = "source", "tests"
RESULTS = ("json", "report")
Values = dict[str, str]


class Program(NamedTuple):
    """A program that a file names: its section, its files, the folder that other names are from, and its options."""

    name: str
    source: Path
    tests: Path | None
    folder: Path
    values: Values

    @property
    def files(self) -> list[Path]:
        """Its source, and what a check writes of it that can be compared."""
        results = [self.values[key] for key in RESULTS if key in self.values]
        return [self.source.resolve(), *((self.folder / name).resolve() for name in results)]


class Sections(NamedTuple):
    path: Path
    common: Values
    programs: list[Program]

    def of(self, path: Path) -> Program | None:
        """The program of the file with this path: that of its source, or of what a check wrote of it."""
        return next((each for each in self.programs if path.resolve() in each.files), None)


def read_ini(path: Path) -> dict[str, Values]:
    parser = configparser.ConfigParser(interpolation=None)
    try:
        parser.read_string(path.read_text(encoding="utf-8-sig"), str(path))
    except configparser.Error as fault:
        raise ValueError(" ".join(str(fault).split())) from None
    return {name: dict(parser[name]) for name in parser.sections()}


def toml_text(value: object) -> str:
    """A value of toml, written as on the command line."""
    if isinstance(value, bool):
        return "yes" if value else "no"
    if isinstance(value, dict):
        return ",".join(f"{key}={number}" for key, number in value.items())
    return ",".join(map(str, value)) if isinstance(value, list) else str(value)


def read_toml(path: Path) -> dict[str, Values]:
    try:
        loads: Callable[[str], dict[str, object]] = import_module("tomllib").loads
    except ImportError:
        raise ValueError(f"Python reads toml from 3.11 on; {INI} is read by all, with the same sections") from None
    sections = loads(path.read_text(encoding="utf-8"))
    return {
        name: {key: toml_text(value) for key, value in section.items()}
        for name, section in sections.items() if isinstance(section, dict)
    }  # fmt: skip


def program_of(name: str, section: Mapping[str, str], folder: Path) -> Program:
    if SOURCE not in section:
        raise ValueError(f"[{name}] has {TESTS}, and no {SOURCE}")
    tests = folder / section[TESTS] if TESTS in section else None
    rest = {key: value for key, value in section.items() if key not in (SOURCE, TESTS)}
    return Program(name, folder / section[SOURCE], tests, folder, rest)


def read_sections(path: Path) -> Sections:
    """The sections of a file; ValueError says why the file can not be used."""
    read = read_toml if path.suffix == ".toml" else read_ini
    sections = {
        name: {key.strip().replace("_", "-"): value for key, value in section.items()}
        for name, section in read(path).items()
    }
    common = sections.pop(SECTION, None)
    named = {name: section for name, section in sections.items() if {SOURCE, TESTS} & set(section)}
    if common is None and not named:
        # To pass over the file would silently leave out options that a build relies on.
        raise ValueError(f"it has neither a section [{SECTION}] nor one with a {SOURCE}")
    return Sections(path, common or {}, [program_of(*each, path.parent) for each in named.items()])


def file_in(folder: Path) -> Path | None:
    return next((path for path in (folder / INI, folder / TOML) if path.is_file()), None)
