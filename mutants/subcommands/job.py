"""Make a job for mothra, on standard output, from a program in fixed form and a table of its tests.

    mutants job [OPTION..] PROGRAM.f [TESTS.json|TESTS.csv]

A table in JSON is a list of tests. A test is a list of values: whole numbers, true and false, and arrays, which are
lists of either, the first subscript varying fastest. In CSV a row is a test; a cell is a whole number, a truth value
(T, F, true or false in any case), or two or more of one kind, separated by blanks, which are an array. An array of
one element needs a table in JSON. A first row may name the dummy arguments, in any order.

A program may be in UTF-8 or Latin-1, with ends of lines of either kind. --expand-tabs reads tabs, --unit picks one of
several units, and --size N=8,LAST=9 gives adjustable bounds their values: those that are made of N, and the last bound
of the array LAST. Line numbers stay those of the file. What may have been meant otherwise is a warning.

Mutants are declared equivalent by PROGRAM.equivalent.csv, if it is there, or by the file of --equivalent. Its entries
are looked for by their texts, for which mothra is asked; a bare list in JSON, as ["ROR 1", "ABS 7"], is taken as it is.
"""

import argparse
import sys
from pathlib import Path

from mutants.checks.settings import READING, with_settings
from mutants.jobs.making import add_making_options, made_of, meant_for, whole_text, wish_of
from mutants.program.finding import add_mothra_option, find_program
from mutants.statuses import SUCCESS
from mutants.subcommands.check import add_options
from mutants.words import tell_remarks


def add_words(parser: argparse.ArgumentParser) -> None:
    parser.add_argument("program", metavar="PROGRAM.f", type=Path)
    parser.add_argument("tests", metavar="TESTS", type=Path, nargs="?", help="a table of tests, .json or .csv")
    add_making_options(parser)
    add_mothra_option(parser)


def run(given: argparse.Namespace, name: str) -> int:
    with_settings(given, given.program, add_options, READING)
    made = made_of(given.program, given.tests, wish_of(given))
    meant = meant_for(
        made, given.program, given.equivalent, lambda: find_program(given.mothra), looks_beside=not given.undeclared
    )
    if given.tests and not made.table:
        advice = f"it does not begin with SUBROUTINE; mutants explain {given.program} says more"
        raise ValueError(f"{given.program}: {advice}")
    tell_remarks(name, made.remarks + meant.remarks)
    sys.stdout.write(whole_text(made, meant.names if meant.is_of_file else None))
    return SUCCESS
