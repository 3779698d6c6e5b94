"""Declare mutants of a program to be equivalent, each with the texts that it was said of and a reason.

    mutants declare [OPTION..] PROGRAM.f MUTANT.. --reason TEXT
    mutants declare [OPTION..] PROGRAM.f --renew

A mutant is a code and a number, as pages and reports name it; further numbers are of the same operator:
ABS 7 9 12 ROR 1. Where other mutants are the same program, they are declared with it. A mutant that the program
equivalents proves equivalent need not be declared: it is left out, and this is said; with --no-proofs it is declared
all the same. Of one that is proved with steps to spare alone it is said that this holds for the tests as they are.

An entry is put behind those of PROGRAM.equivalent.csv beside the program (of a unit that is picked among several,
PROGRAM.UNIT.equivalent.csv): the mutant, its line before and after the change as mothra writes them, and the reason.
Later calls look for an entry by these texts. Where they stand on one line alone the entry means that mutant, whatever
its number has become; where they stand on several, the statements before or behind tell which is meant. Else it is
refused, and named. So a changed program has no declared mutant that nobody looked at. With --renew the numbers of now
are written into the file.
"""

import argparse
import re
import sys
from collections.abc import Iterable, Sequence
from pathlib import Path

from mutants.checks.faults import naming_line
from mutants.checks.settings import READING, with_settings
from mutants.declarations.entries import Entry, appended, entries_text, written_entries
from mutants.declarations.files import asked_present, path_beside
from mutants.declarations.proofs import Proofs
from mutants.declarations.proving import add_proof_options, prover_of, with_ops
from mutants.declarations.settling import Present, Settled, entry_for, settled
from mutants.english import joined_words, plural
from mutants.files import locked, written
from mutants.jobs.making import add_reading_options, made_of, wish_of
from mutants.jobs.sources import Source
from mutants.operators import NAMES
from mutants.program.calling import naming
from mutants.program.finding import add_mothra_option, find_program
from mutants.statuses import SUCCESS
from mutants.subcommands.check import add_options
from mutants.texts.decoding import decoded
from mutants.texts.jobs import Job
from mutants.texts.lines import Mutant
from mutants.texts.twins import name_of, others_by_name
from mutants.words import visible

Name = tuple[str, int]
# What is said of mutants that are proved with steps to spare.
OF_THESE_TESTS = "this holds for the tests as they are, where each leaves that room under the limit on steps"


def add_words(parser: argparse.ArgumentParser) -> None:
    parser.add_argument("program", metavar="PROGRAM.f", type=Path)
    parser.add_argument("mutants", metavar="MUTANT", nargs="*", help="a code and a number, as ROR 1; further numbers")
    parser.add_argument("--reason", metavar="TEXT", help="why no test can kill them")
    parser.add_argument("--renew", action="store_true", help="write the numbers of now of all entries that have moved")
    text = "the file of declarations, in place of the one beside the program"
    parser.add_argument("--equivalent", metavar="FILE.csv", type=Path, help=text)
    add_reading_options(parser)
    add_mothra_option(parser)
    add_proof_options(parser)


def names_in(words: Iterable[str]) -> list[Name]:
    """The mutants that words name: codes, each followed by one number or more."""
    names: list[Name] = []
    op = ""
    for part in re.split(r"[\s,]+", " ".join(words).strip(" ,")):
        match = re.fullmatch(r"(?:([A-Za-z]{3})[-:#]?)?(\d{1,10})|([A-Za-z]{3})", part)
        op = (match[1] or match[3] or op).upper() if match else ""
        if not match or op not in NAMES:
            raise ValueError(
                f"{part!r} is neither a code of an operator nor a number behind one, as in ROR 1 or ABS 7 9 12"
            )
        if match[2]:
            names.append((op, int(match[2])))
    return list(dict.fromkeys(names))


def chosen_mutants(names: Sequence[Name], present: Present) -> list[Mutant]:
    """The mutants of these names, each of which has to be there."""
    by_name = {(mutant.op, mutant.place): mutant for mutant in present.listed}
    for op, place in names:
        if (op, place) not in by_name:
            total = sum(mutant.op == op for mutant in present.listed)
            raise ValueError(f"there is no {op} {place}: {op} has {plural(total, 'mutant')} of this program")
    return [by_name[name] for name in names]


def renewed(entries: Sequence[Entry], meant: Settled, present: Present) -> list[Entry]:
    """The entries as they would be written now. An entry that is refused stays as it is."""
    now = {each.entry.row: entry_for(each.mutant, each.reason, present) for each in meant.declared}
    return [now.get(entry.row, entry) for entry in entries]


def new_entries(given: argparse.Namespace, names: Sequence[Name], meant: Settled, present: Present) -> list[Entry]:
    """The entries of mutants that are not declared yet, each followed by those of its twins."""
    chosen = chosen_mutants(names, present)
    for mutant in chosen:
        if name_of(mutant) in meant.names:
            raise ValueError(f"{name_of(mutant)} is declared already")
    others = others_by_name(present.listed)
    all_names = dict.fromkeys(twin for mutant in chosen for twin in [mutant, *others.get(name_of(mutant), [])])
    wanted = [mutant for mutant in all_names if name_of(mutant) not in meant.names]
    return [entry_for(mutant, " ".join(given.reason.split()), present) for mutant in wanted]


def needless_text(left: Sequence[Entry], proofs: Proofs) -> str:
    """What is said of mutants that need not be declared; no text where there is none."""
    if not left:
        return ""
    is_one = len(left) == 1
    names = joined_words(entry.name for entry in left)
    verb, them = ("is", "it") if is_one else ("are", "them")
    said = f"{names} {verb} proved equivalent and need not be declared (--no-proofs declares {them} all the same)"
    spare = [entry.name for entry in left if proofs.has_spare(entry.name)]
    return f"{said}; of {joined_words(spare)}, with steps to spare, {OF_THESE_TESTS}" if spare else said


def new_text(new: Sequence[Entry], names: Sequence[Name], meant: Settled) -> str:
    """What one call declared, and which of these mutants were not named."""
    twins = [entry.name for entry in new if (entry.op, entry.place) not in names]
    same = f", {joined_words(twins)} among them as the same program" if twins else ""
    return f"{plural(len(new), 'mutant')} declared{same}, and {len(meant.declared)} before"


def renew(path: Path, entries: Sequence[Entry], meant: Settled, present: Present) -> str:
    """Writes the present numbers into the file. The result is how many entries got another number."""
    written(path, entries_text(renewed(entries, meant, present)).encode())
    return f"{len(meant.moved)} of {len(entries)} entries with a new number"


def declare(
    given: argparse.Namespace, names: Sequence[Name], path: Path, source: Source, meant: Settled, present: Present
) -> str:
    """Writes the entries of these mutants at the end of the file. The result is these entries."""
    wanted = new_entries(given, names, meant, present)
    words = with_ops([], dict.fromkeys(entry.op for entry in wanted))
    proofs = prover_of(given).proofs(words, Job(source.text, []), present.listed)
    new = [entry for entry in wanted if entry.name not in proofs.spares]
    if new:
        text = decoded(path.read_bytes()) if path.exists() else ""
        written(path, appended(text, new).encode())
    left = needless_text([entry for entry in wanted if entry.name in proofs.spares], proofs)
    return "; ".join(each for each in (new_text(new, names, meant), left) if each)


def run(given: argparse.Namespace, name: str) -> int:
    names = names_in(given.mutants) if given.mutants else []
    if bool(names) == given.renew or names and not (given.reason or "").strip():
        raise ValueError("it takes mutants and their --reason, or --renew alone")
    with_settings(given, given.program, add_options, READING)
    made = made_of(given.program, None, wish_of(given))
    path = given.equivalent or path_beside(given.program, made.source.unit)
    program = find_program(given.mothra)
    with locked(path), naming_line(given.program, made.source.text, made.source.shown):
        with naming(path):
            entries = written_entries(path)
        # Twins may be of any operator.
        ops = list(NAMES) if names else sorted({entry.op for entry in entries})
        present = asked_present(program, ops, made.text().encode())
        meant = settled(entries, present)
        if given.renew:
            result = renew(path, entries, meant, present)
        else:
            result = declare(given, names, path, made.source, meant, present)
    for remark in meant.remarks() if not given.renew else [f"{entry.name}: {why}" for entry, why in meant.refused]:
        sys.stderr.write(visible(f"{name}: {path}: {remark}\n"))
    sys.stdout.write(visible(f"{path}: {result}\n"))
    return SUCCESS
