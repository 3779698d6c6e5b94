"""Compare what mothra says of the subroutines of jobs, and of their mutants, with what gfortran makes of them.

    tools/against-gfortran [--mutants] MOTHRA JOB.json...

The subroutine is compiled by gfortran and run on each test, by a driver that calls it and prints the line that `MOTHRA
exec` writes. STOP, TRAP and ZPUSH are calls of routines of the driver: of STOP the values are printed, and a trap ends
the run with a status of its own. A run that takes more than a tenth of a second of the processor has no end, which is a
line of its own.

With --mutants each mutant of `MOTHRA list` is made too: the statement of its line is replaced by the text of the list.
A test kills it where its run and that of the program write other lines, which is compared with the bit of the report.

gfortran checks subscripts, the steps of DO, divisors, powers, and sums, differences, products and signs against the
range of INTEGER. Each unit is compiled three times, with other values for variables that have none, so that a run that
rests on one is told. What such a check finds is outside the standard: it is told and not counted, where the report's
bit is 1. So are mutants that gfortran does not compile. Where gfortran finds nothing and the bits are not the same,
`MOTHRA exec` is asked for the outcome of the mutant: a run that it says is outside the standard, or beyond the limit on
steps, is told and not counted either.

There is one line for each job, behind it what was not counted, and each difference. The exit status is 1 where there
is a difference, or where a job cannot be compared. Half of the processors are used.
"""

import argparse
import sys
import tempfile
from pathlib import Path

from developing.gfortran.comparing import compared_runs
from mutants.statuses import FAULT, SUCCESS


def add_words(parser: argparse.ArgumentParser) -> None:
    parser.add_argument("mothra", metavar="MOTHRA", help="the program")
    parser.add_argument("jobs", metavar="JOB.json", nargs="+", type=Path)
    parser.add_argument("--mutants", action="store_true", help="compare the mutants' kills, by list and run")


def differs(mothra: str, path: Path, with_mutants: bool) -> bool:
    """Compares one job, and prints the result. The value says whether there is a difference."""
    with tempfile.TemporaryDirectory() as folder:
        mutants, counts, lines = compared_runs(mothra, path.read_bytes(), Path(folder), with_mutants)
    compared = counts["agree"] + counts["differ"]
    left = sum(counts.values()) - compared
    count, runs = (f" {mutants} mutants:", " runs") if with_mutants else ("", "")
    rest = f", {left} not counted" if left else ""
    print(f"{path.stem}:{count} {counts['agree']} of {compared}{runs} agree{rest}")
    for reason, count_of in sorted(counts.items()):
        if reason not in ("agree", "differ"):
            print(f"{path.stem}: {count_of} {reason}")
    for line in lines:
        print(f"{path.stem}: {line}")
    return bool(lines)


def run(given: argparse.Namespace, name: str) -> int:
    status = SUCCESS
    for path in given.jobs:
        try:
            status = FAULT if differs(given.mothra, path, given.mutants) else status
        except (OSError, ValueError, KeyError) as fault:
            print(f"{name}: {path}: {fault}", file=sys.stderr)
            status = FAULT
    return status
