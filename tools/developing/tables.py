"""Make the tables of the pages that follow from the code.

    tools/tables [--check]

A table stands on its page between two comments, `made by tools/tables: NAME` and `end of NAME`, and is written anew
there: the crates with what each stands on, the tools, the packages in `mutants/`, the wrong bodies that the gate tries,
the functions that have a case for each expression, each statement, and so on, and the rules of the language.
A row says the first sentence of its file. With --check nothing is written: each table that is
another one is told, and the exit status is then 1.
"""

import argparse
import ast
import re
from collections.abc import Callable, Iterator, Mapping, Sequence
from pathlib import Path

from developing.antt.crates import Crates, read_crates, with_those_below
from developing.rules import Rows, rules_of
from mutants.files import written
from mutants.program.roots import ROOT
from mutants.statuses import FAULT, SUCCESS

# A library of the kit that says the texts of faults: nothing rests on it.
OF_TEXTS = "thiserror"
# The types of which the table says which functions have a case for each of their variants.
TYPES = ("Expr", "Stmt", "Action", "CheckFault", "Why")


def first_sentence(text: str) -> str:
    """What a comment or a docstring says first, as the cell of a table."""
    paragraph = " ".join(text.strip().split("\n\n")[0].split())
    sentence = re.match(r".*?\.(?= |$)", paragraph)
    return (sentence[0] if sentence else paragraph).rstrip(".").replace("|", "\\|")


def docstring(path: Path) -> str:
    return first_sentence(ast.get_docstring(ast.parse(path.read_text(encoding="utf-8"))) or "")


def crate_comment(root: Path, crate: str) -> str:
    files = [root / "crates" / crate / "src" / name for name in ("lib.rt", "main.rt")]
    text = next(path for path in files if path.is_file()).read_text(encoding="utf-8")
    return first_sentence("\n".join(line[3:].strip() for line in re.findall(r"^//!.*", text, re.M)))


def stands_on(crates: Crates, crate: str) -> list[str]:
    """What a crate names, without what follows from that."""
    below = crates[crate] & crates.keys()
    follows = set[str]().union(*(with_those_below(crates, other) - {other} for other in below))
    return [f"`{name}`" for name in sorted(crates[crate] - follows - {OF_TEXTS})]


def crates_of(root: Path) -> Rows:
    crates = read_crates(root)
    yield "Crate", "What it is", "Stands on"
    for crate in crates:
        yield f"`{crate}`", crate_comment(root, crate), ", ".join(stands_on(crates, crate))


def tools_of(root: Path) -> Rows:
    gate = (root / ".ci" / "run").read_text(encoding="utf-8")
    yield "Tool", "What it does", "In the gate"
    for path in sorted(each for each in (root / "tools").iterdir() if each.is_file()):
        is_called = re.search(rf"^tools/{path.name}\b", gate, re.M)
        module = root / "tools" / "developing" / f"{path.name.replace('-', '_')}.py"
        yield f"`tools/{path.name}`", docstring(module), "yes" if is_called else ""


def packages_of(root: Path) -> Rows:
    yield "Of `mutants/`", "What it is"
    for path in sorted((root / "mutants").glob("*/__init__.py")):
        yield f"`{path.parent.name}/`", docstring(path)


def wrong_bodies_of(root: Path) -> Rows:
    yield "Crate", "Wrong bodies"
    for folder in sorted(root.glob("crates/*/must-fail")):
        names = sorted(path.stem.replace("_", " ") for path in folder.glob("*.edit"))
        if names:
            yield f"`{folder.parent.name}`", "; ".join(names)


def variants_of(text: str, name: str) -> list[str]:
    """The variants of the enum of this name, where the file declares it."""
    found = re.search(rf"^pub enum {name} \{{\n(.*?)^\}}", text, re.M | re.S)
    return re.findall(r"^    ([A-Z]\w*)", found[1], re.M) if found else []


def functions_of(text: str) -> Iterator[tuple[str, str]]:
    """The name of each function of a file, and its text."""
    for part in re.split(r"(?m)^(?=(?: {4})?(?:pub(?:\(crate\))? )?fn )", text)[1:]:
        yield re.findall(r"fn (\w+)", part)[0], part


def functions_with(modules: Mapping[str, str], name: str, variants: Sequence[str]) -> Iterator[str]:
    """The functions of a crate that name each of these variants of a type, each behind its module."""
    for module, text in modules.items():
        for function, body in functions_of(text):
            if all(re.search(rf"\b{name}::{variant}\b", body) for variant in variants):
                yield f"`{module}::{function}`"


def cases_of(root: Path) -> Rows:
    """The functions of the product that have a case for each variant of a type, by crate."""
    crates: dict[str, dict[str, str]] = {}
    for crate in read_crates(root):
        paths = sorted((root / "crates" / crate / "src").glob("*.rt"))
        crates[crate] = {path.stem: path.read_text(encoding="utf-8") for path in paths if not crate.endswith("_tests")}
    texts = [text for modules in crates.values() for text in modules.values()]
    yield "A case for each", "Functions, by crate and module"
    for name in TYPES:
        variants = [variant for text in texts for variant in variants_of(text, name)]
        found = {crate: list(functions_with(modules, name, variants)) for crate, modules in crates.items()}
        if variants:
            yield f"`{name}`", "; ".join(f"`{crate}` {', '.join(names)}" for crate, names in found.items() if names)


# Each table: its page, and what makes its rows, with the head in front.
TABLES: dict[str, tuple[str, Callable[[Path], Rows]]] = {
    "crates": ("docs/ARCHITECTURE.md", crates_of),
    "tools": ("docs/ARCHITECTURE.md", tools_of),
    "packages": ("docs/ARCHITECTURE.md", packages_of),
    "wrong bodies": ("CONTRIBUTING.md", wrong_bodies_of),
    "cases": ("CONTRIBUTING.md", cases_of),
    "rules": ("docs/LANGUAGE.md", rules_of),
}


def with_table(page: str, name: str, rows: Rows) -> str:
    """A page with a table in its place."""
    begin, end = f"<!-- made by tools/tables: {name} -->\n", f"<!-- end of {name} -->"
    front, first, rest = page.partition(begin)
    _, last, back = rest.partition(end)
    if not first or not last:
        raise ValueError(f"the page has no place for the table {name}")
    lines = [re.sub(r"(?<=\|)  (?=\|)", " ", f"| {' | '.join(row)} |\n") for row in rows]
    lines.insert(1, re.sub(r" [^|]+ ", "---", lines[0]))
    return "".join([front, begin, "\n", *lines, "\n", end, back])


def add_words(parser: argparse.ArgumentParser) -> None:
    parser.add_argument("--check", action="store_true", help="write nothing, and fail where a table is another one")


def run(given: argparse.Namespace, name: str) -> int:
    stale = []
    for table, (place, rows_of) in TABLES.items():
        path = ROOT / place
        page = path.read_text(encoding="utf-8")
        made = with_table(page, table, rows_of(ROOT))
        if made != page and given.check:
            stale.append(f"{place}: the table {table} is another one now: call {name}")
        elif made != page:
            written(path, made.encode())
    print("\n".join(stale) or f"{len(TABLES)} tables are as the code is")
    return FAULT if stale else SUCCESS
