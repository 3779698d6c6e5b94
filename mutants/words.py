"""The words of a call: parsers that all have --help and --version."""

import argparse
import re
import sys
from collections.abc import Callable, Iterable, Sequence
from fractions import Fraction
from pathlib import Path
from typing import TypeVar

from mutants import __version__
from mutants.operators import codes_in

Read = TypeVar("Read")
# Options whose value is a list with commas, and what may follow a comma in it: codes, lines, or sizes.
LISTS = ("--ops", "--except", "--lines", "--size")
ITEM = r"(?:[A-Za-z]{3}|\d+(?:-\d+)?|[A-Za-z]\w*=\d+)"
FURTHER = re.compile(rf",?{ITEM}(?:,{ITEM})*,?|,")


def visible(value: object) -> str:
    """A text in which what a terminal would obey, and what XML has no character for, is shown as U+FFFD."""
    return "".join(c if c.isprintable() or c in "\t\n" else "\ufffd" for c in str(value))


def text_of_help(docstring: str | None) -> str:
    return (docstring or "").strip()


def add_version(parser: argparse.ArgumentParser) -> None:
    parser.add_argument(
        "--version", action="version", version=f"mutants {__version__}", help="show the version and exit"
    )


def is_list_open(words: Sequence[str]) -> bool:
    """Whether the last of these words is a list that goes on."""
    option, sign, _ = words[-1].partition("=")
    return bool(sign) and option in LISTS or words[-2:-1] in [[option] for option in LISTS]


def with_whole_lists(words: Iterable[str]) -> list[str]:
    """The words, where those that are one list with blanks beside its commas are joined: --ops ABS, UOI."""
    joined: list[str] = []
    for word in words:
        is_further = joined and (joined[-1].endswith(",") or word.startswith(",")) and FURTHER.fullmatch(word)
        if is_further and is_list_open(joined):
            joined[-1] += word
        else:
            joined.append(word)
    return joined


def read_by(read: Callable[[str], Read]) -> Callable[[str], Read]:
    """What reads the word of an option. Its error is shown as it is."""

    def typed(word: str) -> Read:
        try:
            return read(word)
        except ValueError as fault:
            raise argparse.ArgumentTypeError(str(fault)) from None

    return typed


def percent(word: str) -> Fraction:
    """A share in percent, as an option takes it."""
    if not re.fullmatch(r"\d{1,3}(\.\d{1,9})?\s*%?", word.strip()):
        raise argparse.ArgumentTypeError(f"{word} is no percentage, as 80 or 92.5")
    share = Fraction(word.strip().rstrip("% "))
    if share > 100:
        raise argparse.ArgumentTypeError(f"{word} is above 100 percent")
    return share


def percent_text(share: Fraction) -> str:
    """A share in percent with all the digits that it was given with."""
    return f"{float(share):.9f}".rstrip("0").rstrip(".")


def number_from_1(word: str) -> int:
    """A number from 1, as an option takes it."""
    if not (word.isascii() and word.isdecimal()) or int(word) == 0:
        raise argparse.ArgumentTypeError(f"{word} is no number from 1")
    return int(word)


def whole_path(word: str) -> str:
    """The full path of a program that a word names, since the program may be called in another folder."""
    return str(Path(word).resolve())


def add_operators(parser: argparse.ArgumentParser) -> None:
    """Adds the options that choose the operators of mutants."""
    ops = read_by(codes_in)
    text = "these operators alone, in any case; sufficient is a set of five"
    parser.add_argument("--ops", metavar="A,B", type=ops, help=text)
    parser.add_argument("--except", metavar="A,B", type=ops, dest="without", help="all operators but these")


def add_mothra_options(parser: argparse.ArgumentParser, *names: str) -> None:
    """Adds the options that are passed on to mothra, the operators by their codes."""
    for option, value, text in (
        ("ops", "A,B", "these operators alone, in any case; sufficient is a set of five"),
        ("every", "Q", "of each list the mutants 1, Q+1, 2Q+1 and on"),
        ("steps", "N", "the limit on steps"),
        ("workers", "N", "how many threads run mutants"),
    ):
        if option in names:
            read: Callable[[str], str] = str
            if option == "ops":
                read = read_by(lambda word: ",".join(codes_in(word)))
            parser.add_argument(f"--{option}", metavar=value, type=read, help=text)


def asked_words(given: argparse.Namespace, *names: str) -> list[str]:
    """The words for mothra, from the options that were given."""
    pairs = [(name, getattr(given, name)) for name in names]
    return [word for name, value in pairs if value is not None for word in (f"--{name}", str(value))]


def tell_remarks(name: str, remarks: Iterable[str]) -> None:
    """Warnings, a line each on standard error. The command goes on."""
    for remark in remarks:
        sys.stderr.write(f"{name}: warning: {visible(remark)}\n")
