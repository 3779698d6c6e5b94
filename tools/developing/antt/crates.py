"""The crates of the repository, as crates.txt has them."""

from collections.abc import Mapping
from pathlib import Path

# Each crate: the crates and the libraries of the kit that it names.
Crates = Mapping[str, set[str]]


def read_crates(root: Path) -> dict[str, set[str]]:
    lines = [line.partition("#")[0] for line in (root / "crates.txt").read_text(encoding="utf-8").split("\n")]
    pairs = [line.partition(":") for line in lines if line.strip()]
    return {head.split()[0]: set(names.split()) for head, _, names in pairs}


def with_those_below(crates: Crates, name: str) -> set[str]:
    """A crate and all that it stands on."""
    return {name}.union(*(with_those_below(crates, other) for other in crates[name] & crates.keys()))


def programs_of(root: Path, crates: Crates) -> list[str]:
    return [name for name in crates if (root / "crates" / name / "src" / "main.rt").is_file()]
