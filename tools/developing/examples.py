"""Try the examples: the stored jobs and reports, and what the pages show of them.

    tools/examples MOTHRA

A suite examples/NAME.suite.json or examples/NAME.csv is of the program examples/NAME.f, or of that whose name stands
before a hyphen. Five things are compared:

- examples/NAME.json with the job that `mutants job` makes of program and suite, and of the mutants that
  examples/NAME.equivalent.csv declares, where that is there;
- examples/NAME.report with what `MOTHRA run` writes for that job, with no option;
- the programs, suites and reports of examples in the rows of crates/rows with the files;
- what README.md and the pages for users show behind each line `$ COMMAND` of a block ```console with what the command
  writes, run from the top of the repository with MOTHRA as `mothra`. A line `...` stands for any lines.
  tools/against-gfortran is not run;
- the fault of each example of a habit, in mutants/explanations/habits.txt, with the one that MOTHRA tells.

There is one line for each thing that is not the same. The last line counts both, and the exit status is 1 where there
is one. It tests what the tests and the rows of the crates cannot, since those read no files.
"""

import argparse
import json
import re
import subprocess
import tempfile
from collections.abc import Iterator, Sequence
from os import environ
from pathlib import Path
from typing import NamedTuple

from mutants.explanations.also import asked_fault
from mutants.explanations.habits import HABITS
from mutants.jobs.making import made_of, meant_for
from mutants.program.roots import ROOT
from mutants.program.unproved import MARK
from mutants.statuses import FAULT, SUCCESS
from mutants.words import whole_path

ROWS = [ROOT / "crates" / "rows" / name for name in ("stdin", "stdout")]
PAGES = ["README.md", "docs/GUIDE.md", "docs/HANDOUT.md", "docs/LANGUAGE.md", "docs/RESULTS.md"]
IN_ROWS = "triangle.f triangle.suite.json triangle-more.suite.json euclid.f euclid.suite.json euclid.report".split()
# The desk calculator takes minutes of a processor, and others may use it too.
SECONDS = 1800


def written(words: Sequence[str], given: bytes | None = None, env: dict[str, str] | None = None) -> str:
    """What a command writes, to both of its outputs."""
    ended = subprocess.run(
        words, cwd=ROOT, input=given, env=env, stdout=subprocess.PIPE, stderr=subprocess.STDOUT, timeout=SECONDS
    )
    lines = ended.stdout.decode(errors="replace").splitlines(keepends=True)
    # An unproved build says what it is at each call, on the error output that is shown here with the other.
    return "".join(line for line in lines if not line.startswith(MARK))


class Example(NamedTuple):
    """The files of an example: its name, the program, the suite, and the declared mutants, where there are any."""

    name: str
    program: Path
    suite: Path
    declared: Path | None

    def stored(self, ending: str) -> Path:
        return self.suite.with_name(self.name + ending)


def examples() -> Iterator[Example]:
    tables = [path.with_suffix(".csv") for path in ROOT.glob("examples/*.f")]
    for suite in sorted(filter(Path.exists, [*ROOT.glob("examples/*.suite.json"), *tables])):
        name = suite.name.removesuffix(".suite.json").removesuffix(".csv")
        names = suite.with_name(f"{name}.equivalent.csv")
        yield Example(name, suite.with_name(f"{name.split('-')[0]}.f"), suite, names if names.exists() else None)


def job_text(each: Example, mothra: str) -> str:
    """The job of a program and its suite."""
    made = made_of(each.program, each.suite)
    meant = meant_for(made, each.program, each.declared, lambda: mothra, looks_beside=False)
    return made.text(meant.names if meant.is_of_file else None)


def compare_files(mothra: str) -> Iterator[tuple[str, bool]]:
    """Each stored job and report: its name, and whether it is the same."""
    for each in examples():
        job, report = each.stored(".json"), each.stored(".report")
        yield f"examples/{job.name}", job_text(each, mothra) == job.read_text()
        yield f"examples/{report.name}", written([mothra, "run"], job.read_bytes()) == report.read_text()


def compare_habits(mothra: str) -> Iterator[tuple[str, bool]]:
    """Each example of each habit: its name and its lines, and whether its fault is the one that mothra tells."""
    for name, habit in HABITS.items():
        for example in habit.examples:
            fault = " ".join(["FAULT", *(asked_fault(mothra, example.source) or ())])
            yield f"{name}: {' | '.join(example.lines)}", fault == example.fault


def as_in_rows(path: Path) -> str:
    """A file as the rows have it: a suite in one line, and an answer with its status before its lines."""
    text = path.read_text().rstrip("\n")
    if path.suffix == ".json":
        return json.dumps(json.loads(text), separators=(",", ":"))
    return "0: " + text.replace("\n", "\n   ") if path.suffix == ".report" else text


def compare_rows() -> Iterator[tuple[str, bool]]:
    rows = "".join(path.read_text() for path in ROWS)
    for name in IN_ROWS:
        yield f"examples/{name} in crates/rows", as_in_rows(ROOT / "examples" / name) in rows


def shown(page: str) -> Iterator[tuple[str, str]]:
    """The commands that a page shows, each with the text behind it."""
    for block in re.findall(r"^```console\n(.*?)^```", (ROOT / page).read_text(), re.M | re.S):
        for part in re.split(r"^\$ ", block, flags=re.M)[1:]:
            command, _, text = part.partition("\n")
            yield command, text


def is_shown(text: str, output: str) -> bool:
    """Whether the text told is the one shown, where a line `...` stands for any lines."""
    pieces = [re.escape(piece) for piece in re.split(r"^\.\.\.\n", text, flags=re.M)]
    return re.fullmatch("(.*\n)*".join(pieces), output) is not None


def compare_pages(mothra: str) -> Iterator[tuple[str, bool]]:
    with tempfile.TemporaryDirectory() as folder:
        Path(folder, "mothra").symlink_to(Path(mothra).resolve())
        Path(folder, "mutants").symlink_to(ROOT / "bin" / "mutants")
        path = {**environ, "PATH": f"{folder}:{environ['PATH']}"}
        for page, (command, text) in ((page, pair) for page in PAGES for pair in shown(page)):
            if not command.startswith("tools/against-gfortran"):
                yield f"{page}: {command}", is_shown(text, written(["sh", "-c", command], env=path))


def add_words(parser: argparse.ArgumentParser) -> None:
    parser.add_argument("mothra", metavar="MOTHRA", type=whole_path)


def run(given: argparse.Namespace, name: str) -> int:
    same = differ = 0
    mothra = given.mothra
    stored = (compare_habits(mothra), compare_files(mothra), compare_rows())
    for compare in (*stored, compare_pages(mothra)):
        for what, is_same in compare:
            same += is_same
            differ += not is_same
            if not is_same:
                print(f"not the same: {what}")
    print(f"{same} the same, {differ} not")
    return FAULT if differ else SUCCESS
