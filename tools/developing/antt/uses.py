"""The imports of a text: which names stand for modules, and which for items of modules."""

import re
from collections.abc import Iterator
from typing import NamedTuple

USE = re.compile(r"^( *)(?:unfoldable )?(?:pub )?(ghost )?use ([^\s{;]+)(?:\{([^}]*)\}| as ([^\s;]+))?", re.M)


class Use(NamedTuple):
    """An import: where it ends, how it is indented, whether it brings items of a module or the module itself, and the
    whole path of each by its name."""

    end: int
    indent: str
    is_ghost: bool
    is_of_items: bool
    paths: dict[str, str]


def uses_in(text: str) -> Iterator[Use]:
    """The imports of a text, in order."""
    for use in USE.finditer(text):
        indent, ghost, path, items, name = use.groups()
        paths = {name or path.split(".")[-1]: path}
        if items is not None:
            pairs = [each.partition(" as ") for each in items.split(",") if each.strip()]
            paths = {(new or old).strip(): path + old.strip() for old, _, new in pairs}
        yield Use(use.end(), indent, ghost is not None, items is not None, paths)
