"""The answers of the program to a job, read as values: its printed text, its mutants, its outcomes, its report."""

from collections.abc import Mapping, Sequence

from mutants.program.calling import answer, read_as
from mutants.progress import Paced
from mutants.texts.batches import groups_of
from mutants.texts.joining import joined_operators
from mutants.texts.lines import Mutant
from mutants.texts.lists import read_list
from mutants.texts.prints import read_print
from mutants.texts.reports import Report, read_report

# Operators are run together up to this many mutants.
BATCH = 40


def asked_print(program: str, job: bytes) -> list[str]:
    """The printed text of each statement."""
    return read_as("mothra print", read_print, answer(program, ["print"], job))


def asked_list(program: str, words: Sequence[str], job: bytes) -> tuple[dict[str, int], list[Mutant]]:
    """The number of mutants of each operator, and the mutants; the words are options of `mothra list`."""
    return read_as("mothra list", read_list, answer(program, ["list", *words], job))


def asked_outcome(program: str, number: int, words: Sequence[str], job: bytes) -> str:
    """The line of the outcome of the program itself on a test, from 1; the words are options of `mothra exec`."""
    return answer(program, ["exec", "--test", str(number), *words], job).rstrip("\n")


def asked_report(program: str, words: Sequence[str], totals: Mapping[str, int], job: bytes, name: str) -> Report:
    """The report on the operators of these totals, asked for in batches; the words are other options of `mothra run`.

    Where this takes long, its progress is shown on standard error, with the name of the command.
    """
    progress, done, whole, reports = Paced(name), 0, sum(totals.values()), []
    try:
        for codes in groups_of(totals, BATCH) if totals else []:
            progress.tell(f"{done} of {whole} mutants, now {codes[0]} to {codes[-1]}")
            answered = answer(program, ["run", "--ops", ",".join(codes), *words], job)
            reports.append(read_as("mothra run", read_report, answered))
            done += sum(totals[op] for op in codes)
    finally:
        progress.progress.end()
    return joined_operators(reports)
