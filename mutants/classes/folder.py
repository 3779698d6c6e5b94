"""The folder of a class: which jobs it asks for, where their results are kept, and which of these are still missing.

Programs, declarations and options lie in FOLDER, and the tables that are handed in in FOLDER/suites. Without such a
folder the tables lie beside the programs: then nobody knows who wrote a declaration or an option there, and none is
read.

A result is kept as three files in FOLDER/out/jobs: NAME.json, the job; NAME.report, what `mothra run` wrote of it; and
NAME.key, the digest of the job and the words of that run. Each is written to another name and then renamed, the key
last; so where the key is that of the job of now, the result is whole and of that job. NAME.outcomes, what the program
itself does on each test, is written after these, and taken away before them. So is the page, NAME.html, whose digest
becomes the second line of the key.
"""

import hashlib
from collections import Counter
from collections.abc import Callable, Collection, Mapping, Sequence
from pathlib import Path
from typing import NamedTuple

from mutants.checks.sections import INI, TOML
from mutants.declarations.files import NONE_MEANT, Meant, existing_beside
from mutants.declarations.proofs import NO_PROOFS, Proofs
from mutants.files import written
from mutants.jobs.making import Made, made_of, meant_for, with_table
from mutants.jobs.sources import Wish, is_program
from mutants.program.calling import Fault


class Reading(NamedTuple):
    """How a program is read, and what is declared of it: by this file, or, unless it is not wanted, by the one beside
    it."""

    wish: Wish = Wish()
    equivalent: Path | None = None
    looks_beside: bool = True


class Task(NamedTuple):
    """A job of the class: its name, the program's file, its text, or why there is none; what was made of its program
    and its table, what is declared, and what is proved."""

    name: str
    program: Path | None
    text: bytes | None
    refusal: str | None = None
    made: Made | None = None
    meant: Meant = NONE_MEANT
    proofs: Proofs = NO_PROOFS

    @property
    def program_name(self) -> str:
        return self.program.stem if self.program else ""

    @property
    def shown(self) -> str:
        """The source as it is shown."""
        return self.made.source.shown if self.made else ""

    @property
    def remarks(self) -> list[str]:
        return self.made.remarks + self.meant.remarks if self.made else []

    @property
    def expected(self) -> dict[int, str]:
        """What the table expects of the program, by test, from 1."""
        return self.made.table.expected if self.made and self.made.table else {}

    @property
    def rows(self) -> Sequence[int]:
        """The row of each test in its table."""
        return self.made.table.rows if self.made and self.made.table else []


TABLES, SUITES = (".json", ".csv"), "suites"
# Answers for a reason that is not the job's own, which may be others the next time.
PASSING = "J1 F1 S1 C1 N1 O1 B1 B2".split()


def name_of(path: Path) -> str:
    """The name of a table of tests: without .json or .csv, and without .suite before it."""
    return path.stem.removesuffix(".suite")


def suites_folder(folder: Path) -> Path:
    """Where the tables lie that are handed in."""
    return folder / SUITES if (folder / SUITES).is_dir() else folder


def is_declaring(path: Path) -> bool:
    """Whether the name of a file is that of declarations."""
    return path.suffix.lower() in TABLES and path.stem.endswith("equivalent")


def programs_in(folder: Path) -> list[Path]:
    return sorted(path for path in folder.iterdir() if is_program(path) and path.is_file())


def tables_in(folder: Path) -> dict[str, Path]:
    """The tables of tests, by name. Where two tables would have the same name, both names have their endings."""
    paths = [path for path in sorted(folder.iterdir()) if path.suffix.lower() in TABLES and not is_declaring(path)]
    names = {path: name_of(path) for path in paths if path.is_file() or path.is_symlink()}
    while twice := [path for path in names if Counter(names.values())[names[path]] > 1 and names[path] != path.name]:
        names.update((path, path.name) for path in twice)
    return {name: path for path, name in names.items()}


def unread_remarks(folder: Path) -> list[str]:
    """Remarks on files with declarations or options, which are not read since anybody may have put them there."""
    paths = [path for path in sorted(suites_folder(folder).iterdir()) if is_declaring(path) or path.name in (INI, TOML)]
    return [f"{path} is not read, since suites are handed in there: {advice_on(path, folder)}" for path in paths]


def advice_on(path: Path, folder: Path) -> str:
    return f"put it into {folder}" if path.parent != folder else f"put the suites into {folder / SUITES}"


def program_of(name: str, programs: Sequence[Path]) -> Path | None:
    """The program of a table: the only one, or the one whose name the table has, or has before a hyphen."""
    if len(programs) == 1:
        return programs[0]
    fitting = [path for path in programs if name == path.stem or name.startswith(f"{path.stem}-")]
    return max(fitting, key=lambda path: len(path.stem)) if fitting else None


def declared_for(program: Path, unit: str, programs: Sequence[Path]) -> Path | None:
    """The file of the mutants of a program that are declared equivalent, or None."""
    if suites_folder(program.parent) == program.parent:
        return None
    common = [program.with_name(f"equivalent{ending}") for ending in (".csv", ".json")] if len(programs) == 1 else []
    return existing_beside(program, unit) or next((path for path in common if path.exists()), None)


# How a program is read, by its path.
Read = Callable[[Path], Reading]
# What is proved of the mutants of a source, of which some are declared.
Prove = Callable[[str, Collection[str]], Proofs]


class Programs:
    """The programs of a folder. What is made, declared and proved of each is asked for once."""

    def __init__(self, paths: Sequence[Path], mothra: str, read: Read, prove: Prove) -> None:
        self.paths, self.mothra, self.prove = paths, mothra, prove
        self.readings = {path: read(path) for path in paths}
        self.made: dict[Path, Made] = {}
        self.known: dict[Path, tuple[Meant, Proofs]] = {}

    def wish_of(self, program: Path) -> Wish:
        """How a program is read. The sizes may be meant for several programs."""
        wish = self.readings[program].wish
        return wish._replace(shares_sizes=wish.shares_sizes or len(self.paths) > 1)

    def declared_of(self, program: Path, unit: str) -> Path | None:
        """The file of its declared mutants, or None."""
        reading = self.readings[program]
        return reading.equivalent or (declared_for(program, unit, self.paths) if reading.looks_beside else None)

    def made_of(self, program: Path) -> Made:
        if program not in self.made:
            self.made[program] = made_of(program, None, self.wish_of(program))
        return self.made[program]

    def meant(self, program: Path) -> tuple[Meant, Proofs]:
        if program not in self.known:
            made = self.made_of(program)
            file = self.declared_of(program, made.source.unit)
            try:
                meant = meant_for(made, program, file, lambda: self.mothra, looks_beside=False)
                self.known[program] = meant, self.prove(made.source.text, meant.names)
            except Fault:
                # The source has a fault, which the run tells.
                self.known[program] = NONE_MEANT, NO_PROOFS
        return self.known[program]


def task_of(name: str, program: Path | None, table: Path, programs: Programs) -> Task:
    """The job of a table. What has to be asked of the program is left for later."""
    try:
        if program is None:
            raise ValueError(f"{table}: there is no program of this name")
        if table.is_symlink():
            raise ValueError(f"{table}: it is a link, and a suite is a file of its own")
        made = with_table(programs.made_of(program), table, programs.wish_of(program))
        meant, proofs = programs.meant(program)
        names = [*meant.names, *proofs.names]
        text = made.text(names if meant.is_of_file or names else None)
        return Task(name, program, text.encode(), None, made, meant, proofs)
    except (ValueError, MemoryError) as fault:
        return Task(name, program, None, " ".join(str(fault).split()).replace(f"{table.parent}/", ""))


def wanted_in(folder: Path, programs: Sequence[Path]) -> Mapping[str, tuple[Path | None, Path]]:
    """Of each job its program and its table, by name: one for each table, and for each program without one of its
    own."""
    tables = tables_in(suites_folder(folder))
    common = tables.pop("suite", None) if len(programs) > 1 else None
    wanted = {name: (program_of(name, programs), table) for name, table in tables.items()}
    having = {program for program, _ in wanted.values()}
    more: dict[str, tuple[Path | None, Path]] = {
        path.stem: (path, common) for path in programs if common and path not in having
    }
    return {**wanted, **more}


def tasks_in(folder: Path, mothra: str, read: Read, prove: Prove) -> list[Task]:
    """The jobs that a folder asks for, by name."""
    if not folder.is_dir():
        raise ValueError(f"{folder}: there is no such folder")
    programs = programs_in(folder)
    if not programs:
        raise ValueError(f"{folder}: there is no program, a file that ends in .f")
    wanted = wanted_in(folder, programs)
    if not wanted:
        raise ValueError(f"{suites_folder(folder)}: there is no table of tests, a file that ends in .json or .csv")
    known = Programs(programs, mothra, read, prove)
    return [task_of(name, *wanted[name], known) for name in sorted(wanted)]


class Results:
    """The results of a class, in the folder of its jobs."""

    def __init__(self, folder: Path, words: list[str]) -> None:
        self.folder, self.words = folder, words
        folder.mkdir(parents=True, exist_ok=True)

    def path(self, name: str, ending: str) -> Path:
        return self.folder / (name + ending)

    def key(self, task: Task) -> str:
        return hashlib.sha256(" ".join(self.words).encode() + b"\0" + (task.text or b"")).hexdigest()

    def text(self, task: Task) -> str | None:
        """What `mothra run` wrote of a job; None where that is not there, or was of another job."""
        try:
            if self.kept_keys(task)[0] == self.key(task):
                return self.path(task.name, ".report").read_bytes().decode("utf-8", "replace")
        except OSError:
            pass
        return None

    def kept_keys(self, task: Task) -> list[str]:
        """The digests of the job and of the page that are kept."""
        path = self.path(task.name, ".key")
        return [*(path.read_text().split("\n") if path.exists() else []), "", ""][:2]

    def has_page(self, task: Task, digest: str) -> bool:
        """Whether the page is there that has this digest."""
        return self.kept_keys(task)[1] == digest and self.path(task.name, ".html").exists()

    def keep_page(self, task: Task, digest: str, text: str) -> None:
        written(self.path(task.name, ".html"), text.encode("utf-8", "replace"))
        written(self.path(task.name, ".key"), f"{self.key(task)}\n{digest}".encode())

    def keep(self, task: Task, text: str) -> None:
        """Keeps a result."""
        for ending in (".key", ".outcomes"):
            self.path(task.name, ending).unlink(missing_ok=True)
        written(self.path(task.name, ".json"), task.text or b"")
        written(self.path(task.name, ".report"), text.encode())
        written(self.path(task.name, ".key"), self.key(task).encode())

    def keep_outcomes(self, task: Task, lines: Sequence[str]) -> None:
        written(self.path(task.name, ".outcomes"), "".join(f"{line}\n" for line in lines).encode())

    def outcomes(self, task: Task) -> list[str] | None:
        """What the program itself does on each test, if that is kept. It is of the present job, as the report is."""
        path = self.path(task.name, ".outcomes")
        return path.read_text().splitlines() if path.exists() else None

    def is_missing(self, task: Task) -> bool:
        """Whether a job has still to be run: it has no result, or one that may be another the next time."""
        if task.text is None:
            return False
        text = self.text(task)
        return text is None or not text.startswith(("REPORT ", "FAULT ")) or text.split()[1] in PASSING
