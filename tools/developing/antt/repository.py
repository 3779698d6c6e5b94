"""The files of antt of all crates, the definitions that they have, and what the words of a text stand for."""

import re
from collections.abc import Iterable, Iterator
from functools import cached_property
from pathlib import Path
from typing import NamedTuple

from developing.antt.crates import read_crates
from developing.antt.units import Unit, units_in
from developing.antt.uses import Use, uses_in

# The modules of the specs/ of a crate in which Rattle puts what it makes of the crate's types.
MADE = ("declared", "contracts")
LIBRARY = "Rattle"
# A word, with a path before it. After a dot it is a field and no name. Texts and comments have no words.
LETTERS = r"[^\s(){}\[\];,@\"«».|]+"
WORD = re.compile(rf"(?<!\.)(?<![^\s(){{}}\[\];,@\"«»|]){LETTERS}(?:\.{LETTERS})*")
# An import that a file passes on: all names of a module below it, or some of another one.
PASSED = re.compile(r"^(?:unfoldable )?pub use ([\w.+]+)\.(?:\*|\{([^}]*)\})$", re.M)
NOISE = re.compile(r'"(?:[^"\\]|\\.)*"|(?:(?<=\s)|^)--(?=\s|-|$).*', re.M)


class Node(NamedTuple):
    """What a text may cite: a definition of a module, by its first name, or a type of a crate, which has no module."""

    crate: str
    module: str
    name: str


class Definition(NamedTuple):
    node: Node
    file: Path
    unit: Unit


class File:
    """A file of antt: its module, its imports, and its definitions by each of their names."""

    def __init__(self, root: Path, path: Path) -> None:
        self.path = path.relative_to(root)
        self.text = path.read_text(encoding="utf-8")
        self.crate, self.folder = self.path.parts[1:3]
        within = self.path.with_suffix("").parts[2:]
        self.module = ".".join([LIBRARY, self.crate, *(within[:-1] if within[-1] == "Lib" else within)])

    @cached_property
    def definitions(self) -> list[Definition]:
        units = [unit for unit in units_in(self.text) if unit.names]
        return [Definition(Node(self.crate, self.module, unit.names[0]), self.path, unit) for unit in units]

    @cached_property
    def by_name(self) -> dict[str, set[Node]]:
        """What each name of the file is of: that of a case may be of several families."""
        nodes: dict[str, set[Node]] = {}
        for node, _, unit in self.definitions:
            for name in [*unit.names, *unit.cases]:
                nodes.setdefault(name, set()).add(node)
        return nodes

    @cached_property
    def passed_on(self) -> list[tuple[str, set[str] | None]]:
        """The modules of which the file passes names on, with these names: None for all of a module below it."""
        return [(module, {name.strip() for name in names.split(",")} if names else None)
                for module, names in PASSED.findall(self.text)]  # fmt: skip


def spellings(name: str) -> list[str]:
    """How a name may be written: an operator by its parts, too."""
    return [name, *filter(None, name.split("◌"))] if "◌" in name else [name]


class Repository:
    """The crates below a folder, with all their files of antt."""

    def __init__(self, root: Path) -> None:
        self.root, self.crates = root, read_crates(root)
        folders = [root / "crates" / crate / part for crate in sorted(self.crates) for part in ("specs", "proofs")]
        files = [File(root, path) for folder in folders for path in sorted(folder.rglob("*.antt"))]
        self.files = {file.module: file for file in files}

    def of(self, folder: str) -> Iterator[File]:
        return (file for file in self.files.values() if file.folder == folder)

    def named(self, path: str) -> set[Node]:
        """What a whole path stands for in the repository: definitions, or a type of its crates."""
        parts = path.split(".")
        if parts[0] != LIBRARY or len(parts) < 4 or parts[1] not in self.crates:
            return set()
        if parts[2] == "specs" and parts[3] in MADE:
            return {Node(parts[1], "", parts[5])} if len(parts) > 5 else set()
        for end in range(len(parts) - 1, 2, -1):
            file = self.files.get(".".join(parts[:end]))
            if file:
                return file.by_name.get(parts[end]) or self.passed_by(file, parts[end])
        return set()

    def passed_by(self, file: File, name: str) -> set[Node]:
        """What a name stands for that a file passes on."""
        below = [f"{file.module}.{module}.{name}" for module, names in file.passed_on if names is None]
        others = [f"{module}.{name}" for module, names in file.passed_on if names and name in names]
        return set[Node]().union(*map(self.named, below + others))


class Scope:
    """What the words of a text stand for, by its imports and by the definitions of its own file. A name that the text
    binds itself counts as one that it cites: nobody binds words that are names of definitions."""

    def __init__(self, repository: Repository, uses: Iterable[Use], own: File | None = None) -> None:
        self.repository = repository
        self.modules: dict[str, str] = {}
        self.items: dict[str, str] = {}
        for use in uses:
            for name, path in use.paths.items():
                known = self.items if use.is_of_items else self.modules
                known.update(dict.fromkeys(spellings(name), path))
        names = own.by_name if own else {}
        self.names = {each: nodes for name, nodes in names.items() for each in spellings(name)}

    def nodes_of(self, word: str) -> set[Node]:
        """What a word cites of the repository."""
        head, _, rest = word.partition(".")
        within = self.repository.named(f"{self.modules[head]}.{rest}") if rest and head in self.modules else set()
        if within or head in self.names:
            return within or self.names[head]
        return self.repository.named(self.items.get(head, word))

    def nodes(self, text: str) -> set[Node]:
        return set[Node]().union(*map(self.nodes_of, set(WORD.findall(NOISE.sub("", text)))))


def citations_of(repository: Repository, file: File) -> dict[Node, set[Node]]:
    """What each definition of a file cites."""
    scope = Scope(repository, uses_in(file.text), file)
    return {node: scope.nodes("\n".join(unit.lines)) - {node} for node, _, unit in file.definitions}
