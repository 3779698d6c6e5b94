"""Tell what the tasks of a gate take: minutes of a processor by crate and kind, and the clock.

    tools/gate-times [COMMAND..]

It runs the command, `rt ci` without one, and looks at the checks below it twice a second. Behind the command's own
lines there is one for each crate: its proof, its tests, its wrong bodies, its compilation; then the sum, the clock, and
the ten tasks that took most. The exit status is that of the command.
"""

import argparse
import os
import subprocess
import time
from pathlib import Path

KINDS = ("proof", "tests", "edits", "compile")
INTERVAL, TICKS, DEAREST = 0.5, os.sysconf("SC_CLK_TCK"), 10
Task = tuple[str, str]


def task_in(words: list[str], folder: str) -> Task | None:
    """The crate and the kind of the check that has these words and runs in this folder; None for another process."""
    if not words[0].endswith("/rattle") or words[1:2] not in (["build"], ["check"]) or "--crate-name" not in words:
        return None
    crate = words[words.index("--crate-name") + 1]
    if "--crate-checked" in words:
        return crate, "compile"
    return crate, "edits" if "/rt-edit-" in folder else "tests" if "--test" in words else "proof"


def look(spent: dict[tuple[str, str], tuple[Task, float]], family: set[int]) -> None:
    """Keeps the time that each check of a family of processes has taken up to now. Children join the family."""
    for pid in sorted(filter(str.isdigit, os.listdir("/proc")), key=int):
        try:
            stat = Path("/proc", pid, "stat").read_text(errors="replace").rpartition(") ")[2].split()
            words = Path("/proc", pid, "cmdline").read_bytes().decode(errors="replace").split("\0")
            task = task_in(words, os.readlink(f"/proc/{pid}/cwd"))
        except OSError:
            # The process has ended since.
            continue
        if int(stat[1]) in family:
            family.add(int(pid))
            # A process that a check starts is a part of the check, and counts in its times once it has ended.
            if task and stat[1] not in {check for check, _ in spent}:
                spent[pid, stat[19]] = task, sum(map(int, stat[11:15])) / TICKS


def table(spent: dict[tuple[str, str], tuple[Task, float]], clock: float) -> str:
    tasks: dict[Task, float] = {}
    for task, seconds in spent.values():
        tasks[task] = tasks.get(task, 0.0) + seconds
    lines = [f"{'crate':24}" + "".join(f"{kind:>9}" for kind in KINDS)]
    for crate in sorted({crate for crate, _ in tasks}):
        lines.append(f"{crate:24}" + "".join(f"{tasks.get((crate, kind), 0) / 60:9.1f}" for kind in KINDS))
    lines.append(f"{sum(tasks.values()) / 60:.1f} minutes of a processor, {clock / 60:.1f} by the clock")
    dearest = sorted(tasks.items(), key=lambda item: -item[1])[:DEAREST]
    return "\n".join([*lines, *(f"{seconds / 60:9.1f}  {crate} {kind}" for (crate, kind), seconds in dearest)])


def add_words(parser: argparse.ArgumentParser) -> None:
    parser.add_argument("command", metavar="COMMAND", nargs=argparse.REMAINDER, help="else rt ci")


def run(given: argparse.Namespace, name: str) -> int:
    begun, child = time.monotonic(), subprocess.Popen(given.command or ["rt", "ci"])
    spent: dict[tuple[str, str], tuple[Task, float]] = {}
    family = {child.pid}
    while child.poll() is None:
        look(spent, family)
        time.sleep(INTERVAL)
    print(table(spent, time.monotonic() - begun), flush=True)
    return child.returncode
