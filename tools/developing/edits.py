"""Try wrong bodies: make edits on copies of the crates, and see that the prover refuses each.

    tools/edits [--gate] [--jobs N] [NAME|NAME/EDIT..]

It tries the edits crates/NAME/more-edits/*.edit of all crates, or of those that are named, with --gate also those
of crates/NAME/must-fail; or single edits, of either folder. An edit is a line 'file: src/FILE' and then pairs of lines
'old: TEXT' and 'new: TEXT'. Each old text stands in the file exactly once, and a pair applies to what the earlier
ones made.

Edits are tried on N copies side by side, by default one for two processors. A copy has the crate, those below it and
what earlier checks left in their out/, so that a check only proves what an edit has changed; where that is missing,
the whole crate is proved first. `rt check --jobs 1` is run in the copy, and at last without any edit.

Edits of the bodies of different functions are tried in one check: the proof of a function rests on the contracts of
those that it calls, and not on their bodies, so each such edit has to leave its own function unproved. An edit that
does not, or that is no edit of one function's body, is tried by itself.

There is one line for each edit. It is refused where the check ends with logic=not-proved: the line has the first goal
that was not proved. It is a BAD EDIT where it does not apply, or where the check ended before a goal was tried. The
last line counts both, and the exit status is 1 where an edit is not refused.
"""

import argparse
import os
import re
import subprocess
import tempfile
from collections import deque
from collections.abc import Container, Mapping, Sequence
from concurrent.futures import ThreadPoolExecutor
from pathlib import Path

from developing.antt.crates import Crates, read_crates, with_those_below
from mutants.program.roots import ROOT
from mutants.statuses import FAULT, SUCCESS

# Whether the prover has refused an edit, and what is said of it.
Tried = tuple[bool, str]
# A module, a function of it, and what is proved with that.
Place = tuple[str, str, str]
# Edits by what they change. An edit that is not of one function has no place, and is alone.
Group = dict[Place | None, Path]
LONGEST = 200
PARTS = ("src/", "specs/", "proofs/")
# What the check says of a file that it can not read; a statement that is only false can be read.
UNREADABLE = "is not in scope|has no field|is no name|operand is missing|expected the end|cannot continue"
# What the check says of a proof that names what an edit has removed, and of what cites that proof.
TAKEN_AWAY = r"(note: )?(\./)?proofs/.*(has no field|is not in scope|has no `|was not admitted)"


def edits_of(name: str, folder: str) -> list[Path]:
    return sorted((ROOT / "crates" / name / folder).glob("*.edit"))


def wanted_edits(crates: Crates, names: Sequence[str], with_gate: bool) -> dict[str, list[Path]]:
    """The edits to try of each crate: of all crates, or those that the names stand for."""
    wanted: dict[str, list[Path]] = {}
    for crate in crates:
        gate, more = edits_of(crate, "must-fail"), edits_of(crate, "more-edits")
        is_whole = crate in names or not names
        wanted[crate] = (gate if with_gate else []) + more if is_whole else []
        wanted[crate] += [path for path in gate + more if f"{crate}/{path.stem}" in names and path not in wanted[crate]]
    known = {*crates, *(f"{crate}/{path.stem}" for crate in crates for path in wanted[crate])}
    unknown = [name for name in names if name not in known]
    if unknown:
        raise ValueError(f"there is no crate and no edit {unknown[0]}")
    return wanted


def read_edit(path: Path, folder: Path) -> dict[str, str]:
    """The texts of the files of a crate that an edit changes, with the changes."""
    file, old = "", None
    texts: dict[str, str] = {}
    for line in path.read_text(encoding="utf-8").split("\n"):
        word, _, text = line.partition(":")
        text = text.removeprefix(" ")
        if word == "file":
            file = text.strip()
            if os.path.normpath(file) != file or not file.startswith(PARTS):
                raise ValueError("its file is none below src, specs or proofs")
        elif word == "old":
            old = text
        elif word == "new":
            if not file or not old:
                raise ValueError("a new text has no old text or no file")
            if file not in texts:
                texts[file] = (folder / file).read_text(encoding="utf-8")
            count = texts[file].count(old)
            if count != 1:
                raise ValueError(f"an old text is in {file} {count} times, and not once")
            texts[file] = texts[file].replace(old, text)
            old = None
    if not texts:
        raise ValueError("it has no pair of texts")
    return texts


def copy(source: Path, target: Path, names: Sequence[str]) -> None:
    (target / "crates").mkdir(parents=True)
    for name in names:
        subprocess.run(["cp", "-r", "--reflink=auto", source / "crates" / name, target / "crates" / name], check=True)
    lines = (source / "crates.txt").read_text(encoding="utf-8").split("\n")
    kept = [line for line in lines if line.strip() and line.split()[0].rstrip(":") in names]
    (target / "crates.txt").write_text("\n".join([*kept, ""]), encoding="utf-8")
    if (source / "HANDLES").exists():
        (target / "HANDLES").write_bytes((source / "HANDLES").read_bytes())


def check(folder: Path) -> tuple[int, list[str]]:
    """The status of a check, and its lines up to the verdict, without those of rt itself."""
    words = ["rt", "check", "--jobs", "1"]
    null, pipe = subprocess.DEVNULL, subprocess.PIPE
    ended = subprocess.run(
        words, cwd=folder, text=True, errors="replace", stdin=null, stdout=pipe, stderr=subprocess.STDOUT
    )
    lines = ended.stdout.rstrip("\n").split("\n")
    return ended.returncode, [line for line in lines if not line.startswith("rt: ")] or lines


def is_unreadable(line: str, files: Container[str]) -> bool:
    """Whether the line says that a definition, a clause or an edited file cannot be read."""
    place = re.match(r"(?:\./)?(\S+?):\d+:\d+: error: (?:(`[^`]*`): )?(.*)", line)
    if not place or place[1] not in files and not place[1].startswith(("src/", "specs/")):
        return False
    return not place[2] or bool(re.search(UNREADABLE, re.sub("`[^`]*`", "", place[3])))


def judge(status: int, lines: Sequence[str], files: Container[str]) -> Tried:
    """Whether the prover has refused an edit of these files, and what is said of it."""
    unread = [line for line in lines if is_unreadable(line, files)]
    if unread:
        return False, f"BAD EDIT: the edited text cannot be read: {unread[0]}"
    if any("Run the lower steps again" in line for line in lines):
        return False, "BAD EDIT: what earlier checks of a library left cannot be used"
    if status == SUCCESS:
        return False, "NOT REFUSED"
    if status != FAULT or not lines[-1].startswith("logic=not-proved"):
        faults = [line for line in lines if "error" in line] or lines
        return False, f"BAD EDIT: no goal was tried: {faults[0]}"
    # Lines that begin with blanks belong to the message before them.
    messages = re.sub("\n +", " ", "\n".join(lines)).split("\n")
    messages = [line for line in messages if re.match(r"note: \S+:\d+:\d+: |\S+:\d+:\d+: error", line)]
    goals = [line.partition("; ")[0] for line in messages if "it is not proved" in line]
    proofs = [line for line in messages if not re.match(TAKEN_AWAY, line)]
    if messages and not proofs:
        return True, f"refused: only because a proof names what the edit took away: {messages[0]}"
    unproved = [line for line in lines if re.match(r"fn \S+: (not proved|no proof)", line)]
    return True, f"refused: {(goals or proofs or unproved or lines)[0].removeprefix('note: ')}"


def put_back(folder: Path, kept: Mapping[str, bytes]) -> None:
    for file, data in kept.items():
        (folder / file).write_bytes(data)


def is_proved(name: str, folder: Path) -> bool:
    status, lines = check(folder)
    if status != SUCCESS:
        print(f"{name}: it is not proved without an edit, so its edits show nothing: {lines[-1]}", flush=True)
    return status == SUCCESS


def try_edit(path: Path, folder: Path) -> Tried:
    try:
        texts = read_edit(path, folder)
    except (OSError, ValueError) as fault:
        return False, f"BAD EDIT: {fault}"
    kept = {file: (folder / file).read_bytes() for file in texts}
    try:
        for file, text in texts.items():
            (folder / file).write_text(text, encoding="utf-8")
        return judge(*check(folder), texts)
    finally:
        put_back(folder, kept)


def place_of(path: Path, folder: Path) -> Place | None:
    """The module, the function whose body is all that an edit changes, and what is proved together with it;
    None where the edit is not of one body."""
    files = {line[5:].strip() for line in path.read_text(encoding="utf-8").split("\n") if line.startswith("file:")}
    olds = [line[5:] for line in path.read_text(encoding="utf-8").split("\n") if line.startswith("old: ")]
    if len(files) != 1 or not min(files).startswith("src/"):
        return None
    file = min(files)
    text = (folder / file).read_text(encoding="utf-8")
    places = {function_at(text, text.find(old)) for old in olds if old in text}
    place = places.pop() if len(places) == 1 else None
    if place is None:
        return None
    module = file.removeprefix("src/").removesuffix(".rt").replace("/", "::")
    return ("" if module in ("lib", "main") else module + "::"), *place


def function_at(text: str, at: int) -> tuple[str, str] | None:
    """The function in whose body a place of the text is, and its cycle of calls; else the place where it begins."""
    heads = [it for it in re.finditer(r"(?m)^( *)(?:pub(?:\(crate\))? )?fn (\w+)", text) if it.start() <= at]
    if not heads:
        return None
    behind = text[heads[-1].start() : at]
    is_in_body = re.search(rf"(?m)^{heads[-1][1]}\{{", behind) or re.search(r"\{\n", behind)
    is_over = re.search(rf"(?m)^{heads[-1][1]}\}}", behind)
    # Functions that call one another have one proof.
    cycles = re.findall(r"#\[cycle\((\w+)\)\]", text[: heads[-1].start()].rpartition("\n\n")[2])
    return (heads[-1][2], cycles[0] if cycles else str(heads[-1].start())) if is_in_body and not is_over else None


def in_groups(edits: Sequence[Path], folder: Path) -> list[Group]:
    """The edits in groups. The edits of a group change different functions; an edit that is not of one function is
    alone."""
    groups: list[Group] = []
    alone: list[Group] = []
    for path in edits:
        try:
            place = place_of(path, folder)
        except OSError:
            place = None
        if not place:
            alone.append({None: path})
            continue
        for group in groups:
            if all(other and (place[0], place[2]) != (other[0], other[2]) for other in group):
                group[place] = path
                break
        else:
            groups.append({place: path})
    return groups + alone


def try_group(group: Group, name: str, folder: Path) -> dict[Path, str]:
    """What is said of each edit of a group that one check of the whole group refuses, by its path."""
    texts: dict[str, str] = {}
    kept: dict[str, bytes] = {}
    try:
        for path in group.values():
            for file in read_edit(path, folder):
                kept.setdefault(file, (folder / file).read_bytes())
            for file, text in read_edit(path, folder).items():
                (folder / file).write_text(text, encoding="utf-8")
                texts[file] = text
        status, lines = check(folder)
        is_tried = status == FAULT and lines[-1].startswith("logic=not-proved")
        if not is_tried or any(is_unreadable(it, texts) for it in lines):
            return {}
        unproved = [line for line in lines if re.match(r"fn \S+: (not proved|no proof)", line)]
        said = {}
        for place, path in group.items():
            module, function, _ = place or ("", "", "")
            own = [it for it in unproved if re.match(rf"fn {name}::{module}(\S+::)?{function}: ", it)]
            # A function that is unproved only since it calls others shows nothing of its own body.
            if own and not any(re.search(r"\bit calls ", it) for it in own):
                said[path] = f"refused: {own[0]}"
        return said
    except (OSError, ValueError):
        return {}
    finally:
        put_back(folder, kept)


def try_on_copy(folder: Path, name: str, waiting: deque[Group]) -> list[bool]:
    """Tries groups of edits while some wait. The result says whether each edit was refused;
    nothing counts if the crate is not proved at the end."""
    refused = []
    while waiting:
        try:
            group = waiting.popleft()
        except IndexError:
            break
        said = try_group(group, name, folder) if len(group) > 1 else {}
        for path in group.values():
            is_refused, reason = (True, said[path]) if path in said else try_edit(path, folder)
            print(f"{name}/{path.stem}: {reason[:LONGEST]}", flush=True)
            refused.append(is_refused)
    return refused if not refused or is_proved(name, folder) else [False for _ in refused]


def try_crate(crates: Crates, name: str, edits: Sequence[Path], jobs: int) -> list[bool]:
    names = [it for it in crates if it in with_those_below(crates, name)]
    with tempfile.TemporaryDirectory(prefix="edits-") as room:
        groups = in_groups(edits, ROOT / "crates" / name)
        copies = [Path(room, str(number)) for number in range(min(jobs, len(groups)))]
        copy(ROOT, copies[0], names)
        if not all((copies[0] / "crates" / it / "out").is_dir() for it in names):
            print(f"{name}: no earlier check left its work, so the crate is proved first", flush=True)
            if not is_proved(name, copies[0] / "crates" / name):
                return [False for _ in edits]
        for other in copies[1:]:
            copy(copies[0], other, names)
        waiting = deque(groups)
        with ThreadPoolExecutor(len(copies)) as pool:
            try:
                tried = pool.map(lambda it: try_on_copy(it / "crates" / name, name, waiting), copies)
                return [is_refused for refused in tried for is_refused in refused]
            finally:
                waiting.clear()


def add_words(parser: argparse.ArgumentParser) -> None:
    parser.add_argument("names", metavar="NAME", nargs="*", help="a crate, or an edit as NAME/EDIT; none: all crates")
    parser.add_argument("--gate", action="store_true", help="try the edits of must-fail/ too")
    parser.add_argument("--all", action="store_true", help="try all edits of all crates, those of must-fail/ too")
    half = len(os.sched_getaffinity(0)) // 2
    parser.add_argument("--jobs", metavar="N", type=int, default=half, help="how many copies side by side")


def run(given: argparse.Namespace, name: str) -> int:
    crates = read_crates(ROOT)
    refused: list[bool] = []
    for crate, edits in wanted_edits(crates, [] if given.all else given.names, given.gate or given.all).items():
        refused += try_crate(crates, crate, edits, max(given.jobs, 1)) if edits else []
    print(f"{sum(refused)} refused, {len(refused) - sum(refused)} not")
    return SUCCESS if all(refused) else FAULT
