"""What can be named outside a crate: in public modules, and through what its root passes on."""

import re
from collections.abc import Iterable, Iterator
from pathlib import Path
from typing import NamedTuple

from developing.antt.contracts import Part, owner_of, parts_in

MODULE = re.compile(r"^pub mod (\w+);", re.M)
PASSED = re.compile(r"^pub use ([^;]+);", re.M)
TYPE = re.compile(r"(?:pub(?:\(crate\))? )?(?:struct|enum|trait)\b")
OF_TRAIT = re.compile(r" for (?!<)")


class Source(NamedTuple):
    """A file of code: its crate, its module, its text and the parts of that."""

    crate: str
    module: str
    path: Path
    text: str
    parts: list[Part]


class Visible(NamedTuple):
    """The public modules of a crate, the names that its root passes on, and its types with their visibility."""

    modules: set[str]
    passed: set[tuple[str, str]]
    types: dict[str, bool]

    def is_visible(self, module: str, name: str) -> bool:
        return module in self.modules or (module, name) in self.passed

    def is_public(self, module: str, part: Part) -> bool:
        """Whether the contracts of a part of a module are promises to other crates."""
        if not part.head:
            return part.is_marked and self.is_visible(module, part.name)
        owner, trait = owner_of(part.head), OF_TRAIT.search(part.head)
        if trait:
            # A type or a trait of another crate is not hidden here.
            return all(self.types.get(name, True) for name in (owner, owner_of(part.head[: trait.start()])))
        is_open = part.is_marked or not part.name or re.search(r"\btrait\b", part.head) is not None
        return is_open and self.types.get(owner, False)


def sources_of(root: Path, crate: str) -> list[Source]:
    """The files of code of a crate."""
    sources = []
    for path in sorted((root / "crates" / crate / "src").rglob("*.rt")):
        text = path.read_text(encoding="utf-8")
        sources.append(Source(crate, path.stem, path.relative_to(root), text, list(parts_in(text))))
    return sources


def passed_on(text: str) -> Iterator[tuple[str, str]]:
    """The names that the root of a crate passes on, with their modules."""
    for line in PASSED.finditer(text):
        path, brace, items = line[1].partition("{")
        path, items = (path, items.strip().rstrip("}")) if brace else path.rpartition("::")[::2]
        modules = [part for part in path.split("::") if part and part not in ("crate", "self")]
        names = [each.partition(" as ")[0].strip() for each in items.split(",") if each.strip()]
        yield from ((modules[-1], name) for name in names if modules)


def visible_in(sources: Iterable[Source]) -> Visible:
    sources = list(sources)
    roots = "\n".join(source.text for source in sources if source.module == "lib")
    names = set(passed_on(roots))
    modules = {*MODULE.findall(roots), "lib"} | {module for module, name in names if name == "*"}
    visible = Visible(modules, names, {})
    for source in sources:
        for part in source.parts:
            if not part.name and TYPE.match(part.head):
                name = owner_of(part.head)
                is_public = part.is_marked and visible.is_visible(source.module, name)
                visible.types[name] = is_public or visible.types.get(name, False)
    return visible
