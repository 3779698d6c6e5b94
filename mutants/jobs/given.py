"""What a subcommand is given to work on: a job, or a program with a table of tests of which a job is made."""

import argparse
from collections.abc import Callable, Sequence
from pathlib import Path
from typing import NamedTuple

from mutants.declarations.files import NONE_MEANT, Meant, meant_by, read_declarations
from mutants.declarations.said import Said
from mutants.jobs.making import made_of, meant_for, whole_text, wish_of
from mutants.jobs.sources import FREE, SUFFIXES, is_program
from mutants.program.calling import Fault

MORE = "of a program that is read with options, or with declarations, take PROGRAM.f in place of a job"


class Given(NamedTuple):
    """The bytes of a job, and what is known of it beside them. `warnings` stand on standard error as well."""

    job: bytes
    said: Said
    warnings: list[str]
    # The row of each test in its table, where there is one.
    rows: Sequence[int] = ()


def of_job(path: Path, equivalent: Path | None, mothra: Callable[[], str | None]) -> Given:
    """A job as it is stored; a file of declarations gives the reasons of those that the job has."""
    job = path.read_bytes()
    if path.suffix.lower() in FREE:
        raise ValueError(
            f"{path}: free form is not read; in fixed form statements stand in columns 7 to 72, in a file named .f"
        )
    if path.suffix.lower() != ".json" and not job.lstrip().startswith(b"{"):
        raise ValueError(f"{path}: it is no job in JSON, and the name of a program ends in {', '.join(SUFFIXES)}")
    meant = meant_by(read_declarations(equivalent), mothra(), job) if equivalent else NONE_MEANT
    return Given(job, Said(None, meant.reasons, meant.remarks), meant.remarks)


def of_program(given: argparse.Namespace, program: Path, tests: Path | None, mothra: Callable[[], str | None]) -> Given:
    """The job that is made of a program and a table."""
    made = made_of(program, tests, wish_of(given))
    meant: Meant = meant_for(made, program, given.equivalent, mothra, looks_beside=not given.undeclared)
    remarks = made.remarks + meant.remarks
    text = whole_text(made, meant.names if meant.is_of_file else None)
    rows = made.table.rows if made.table else []
    return Given(text.encode(), Said(made.source.shown, meant.reasons, remarks, titles=made.titles), remarks, rows)


def given_job(given: argparse.Namespace, path: Path, tests: Path | None, mothra: Callable[[], str | None]) -> Given:
    """What the words name: a program in fixed form, if its name ends so or a table follows; else a job."""
    if tests is not None or is_program(path):
        return of_program(given, path, tests, mothra)
    if given.unit or given.size or given.expand_tabs or given.undeclared:
        raise ValueError(f"{path} is taken for a job: {MORE}")
    return of_job(path, given.equivalent, mothra)


def job_to_tell(given: argparse.Namespace, path: Path, tests: Path | None, mothra: Callable[[], str | None]) -> Given:
    """What the words name. Where the source has a fault, which is reported later, no mutants are declared."""
    try:
        return given_job(given, path, tests, mothra)
    except Fault:
        given.undeclared, given.equivalent = is_program(path), None
        return given_job(given, path, tests, mothra)
