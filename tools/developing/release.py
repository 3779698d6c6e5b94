"""Make a release: a wheel with the two programs, for machines with Python alone.

    tools/release [--into FOLDER] GATE

GATE is what `.ci/run` or `rt ci` wrote of this state; its last line has to say that nothing failed. The programs are
those that stand in the crates since then, and nothing may be changed that is not committed. Written are, in a folder
(release/): the wheel, with the tag of the platform that the programs are built for; RELEASE.md, which says which
commit, which kit, and the last line of the gate; and SHA256SUMS with the digests of the wheel and the programs.
"""

import argparse
import hashlib
import json
import platform
import re
import subprocess
import sys
from collections.abc import Mapping
from pathlib import Path

from mutants.program.finding import BUILT, BUILT_EQUIVALENTS
from mutants.program.programs import EQUIVALENTS, MOTHRA
from mutants.program.released import FACTS
from mutants.program.roots import ROOT
from mutants.statuses import SUCCESS

PROGRAMS = {MOTHRA.name: BUILT, EQUIVALENTS.name: BUILT_EQUIVALENTS}
PASSED = re.compile(r"\d+ passed, 0 failed")
NEEDED = re.compile(rb"\bGLIBC_2\.(\d+)\b")
PAGE = """\
# Mothra in Rattle, {version}

    pip install {wheel}

installs the command `mutants` with the programs `mothra` and `equivalents`, which are proved. It needs Python 3.10 or
later, and nothing else.

| Commit | Kit | The gate's last line |
|---|---|---|
| `{commit}` | `{kit}` | `{gate}` |

`sha256sum -c SHA256SUMS` compares the wheel; the digests of the two programs stand there as comments.
"""


def said_by(*words: str) -> str:
    return subprocess.run(words, cwd=ROOT, check=True, capture_output=True, text=True).stdout.strip()


def last_line(gate: Path) -> str:
    lines = gate.read_text(encoding="utf-8", errors="replace").split("\n")
    ends = [line for line in lines if re.match(r"\d+ passed, \d+ failed|FAILED ", line)]
    if not ends or not PASSED.fullmatch(ends[-1]):
        raise ValueError(f"{gate}: its last line is no gate's that passed: {ends[-1] if ends else 'there is none'}")
    return ends[-1]


def committed() -> str:
    """The commit, of which all files have to be."""
    changed = said_by("git", "status", "--porcelain", "--untracked-files=no")
    if changed:
        raise ValueError(f"a file is changed and not committed: {changed.split()[-1]}")
    return said_by("git", "rev-parse", "HEAD")


def tag_of(programs: Mapping[str, bytes]) -> str:
    """The tag of the platform: the processor, and the C library that the programs need at least."""
    needed = [int(number) for data in programs.values() for number in NEEDED.findall(data)]
    system = f"manylinux_2_{max(needed)}" if needed else "linux"
    return f"py3-none-{system}_{platform.machine()}"


def add_words(parser: argparse.ArgumentParser) -> None:
    parser.add_argument("gate", metavar="GATE", type=Path, help="what the gate wrote")
    parser.add_argument("--into", metavar="FOLDER", type=Path, default=ROOT / "release", help="else release/")


def run(given: argparse.Namespace, name: str) -> int:
    sys.path.insert(0, str(ROOT / "installing"))
    from wheel_of_the_tree import VERSION, write_wheel

    programs = {name: path.read_bytes() for name, path in PROGRAMS.items()}
    digests = {name: hashlib.sha256(data).hexdigest() for name, data in programs.items()}
    facts = {"commit": committed(), "kit": said_by("rt", "version"), "gate": last_line(given.gate)}
    given.into.mkdir(parents=True, exist_ok=True)
    data = {f"mutants/programs/{FACTS}": (json.dumps(facts | digests, indent=1) + "\n").encode()}
    placed = {f"mutants/programs/{name}": data for name, data in programs.items()}
    wheel = write_wheel(given.into, tag_of(programs), data, placed)
    sums = [f"{hashlib.sha256((given.into / wheel).read_bytes()).hexdigest()}  {wheel}"]
    sums += [f"# {digest}  mutants/programs/{name}" for name, digest in digests.items()]
    (given.into / "SHA256SUMS").write_text("\n".join([*sums, ""]), encoding="utf-8")
    (given.into / "RELEASE.md").write_text(PAGE.format(version=VERSION, wheel=wheel, **facts), encoding="utf-8")
    print(given.into / wheel)
    return SUCCESS
