"""See which definitions public contracts reach, and that each file of specs/ stands where it belongs.

    tools/definitions [--check]

A definition is of the first of these classes that it is reached from, directly or through other definitions:

    program  the contracts of the programs, and of the calls that these name
    public   a contract that other crates see: of a public call, of a trait, of an impl, and what a type or its Model
             says of all its values, where a program stands on the crate
    laws     what a public impl gives as a proof: coded, laws, inverse, inverse_ok, size_decreases
    code     a contract that no other crate sees, and those of the crates of tests and of their samples
    proofs   proofs/, and attributes of the code for its proofs
    nothing  none of these

What public contracts reach belongs in specs/, and what private functions and proofs alone reach in specs/code/. A file
that only proofs reach belongs in proofs/, unless another file of specs/ cites it. The table has the lines of each
class, with the comments above definitions, and without imports and empty lines.

Only texts are read: a word cites what it is the name of, by the imports of its file. With --check there is one line for
each file in the wrong place, for each name that has definitions in two modules, and for each line that is too wide; the
exit status is 1 if there are any. A line has at most 100 columns in a definition that public contracts reach, 120
elsewhere in specs/ and src/, and 200 in proofs/: texts in quotation marks and attributes aside.
"""

import argparse
from collections import Counter
from collections.abc import Iterable, Iterator

from developing.antt.placing import misplaced
from developing.antt.reaching import CLASSES, Reached, reach
from developing.antt.widths import wide_of
from mutants.program.roots import ROOT
from mutants.statuses import FAULT, SUCCESS


def add_words(parser: argparse.ArgumentParser) -> None:
    of_check = "print what is in the wrong place, named twice or too wide, and fail if there is any"
    parser.add_argument("--check", action="store_true", help=of_check)


def row(cells: Iterable[object]) -> str:
    first, *rest = map(str, cells)
    return f"{first:20}" + "".join(f"{cell:>9}" for cell in rest)


def table_of(reached: Reached) -> Iterator[str]:
    """The lines of each crate by classes."""
    counts: dict[str, Counter[str]] = {}
    for definition in reached.definitions():
        count = definition.unit.lines_of_text()
        for crate in (definition.node.crate, "all"):
            counts.setdefault(crate, Counter()).update({reached.class_of(definition): count})
    yield row(["lines of", *CLASSES, "all"])
    for crate in sorted(counts, key=lambda name: (name == "all", name)):
        yield row([crate, *(counts[crate][kind] for kind in CLASSES), sum(counts[crate].values())])


def named_twice(reached: Reached) -> Iterator[str]:
    """The names of definitions that stand in two modules or more."""
    modules: dict[str, list[str]] = {}
    for definition in reached.definitions():
        for name in definition.unit.names:
            modules.setdefault(name, []).append(definition.node.module.partition(".")[2])
    for name in sorted(name for name in modules if len(modules[name]) > 1):
        yield f"two modules define {name}: {', '.join(modules[name])}"


def run(given: argparse.Namespace, name: str) -> int:
    reached = reach(ROOT)
    if not given.check:
        print("\n".join(table_of(reached)))
        return SUCCESS
    faults = [*misplaced(reached), *named_twice(reached), *wide_of(reached)]
    print("\n".join(faults) or "each file of specs/ stands where it belongs, each name stands for one definition")
    return FAULT if faults else SUCCESS
