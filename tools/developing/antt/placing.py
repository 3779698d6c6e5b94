"""Which files of specs/ are in the wrong place."""

from collections.abc import Iterator, Mapping, Sequence

from developing.antt.clauses import CODE
from developing.antt.reaching import NOTHING, OPEN, PROOFS, Reached
from developing.antt.repository import File

# The folder of what private functions cite.
FOLDER = "code"


def cited_by_others(reached: Reached) -> set[str]:
    """The modules that definitions of other modules cite."""
    nodes = ((node.module, each.module) for node, cited in reached.graph.items() if node.module for each in cited)
    return {cited for module, cited in nodes if cited != module}


def names_by_class(reached: Reached, file: File) -> dict[str, list[str]]:
    names: dict[str, list[str]] = {}
    for definition in file.definitions:
        names.setdefault(reached.class_of(definition), []).append(definition.node.name)
    return names


def faults_of(file: File, names: Mapping[str, Sequence[str]], is_cited: bool) -> Iterator[str]:
    """What is wrong with a file that has these names by class, and is cited by another file of specs/ or not."""
    is_in_code, home = FOLDER in file.path.parts[3:-1], f"crates/{file.crate}/specs/"

    def listed(*kinds: str) -> str:
        return ", ".join(name for kind in kinds for name in names.get(kind, ()))

    if NOTHING in names:
        yield f"nothing cites {listed(NOTHING)}"
    if names.keys() <= {PROOFS, NOTHING} and PROOFS in names and not is_cited:
        yield f"only proofs cite it: it belongs in crates/{file.crate}/proofs/"
    elif is_in_code and names.keys() <= OPEN:
        yield f"public contracts cite it: it belongs in {home}"
    elif is_in_code and names.keys() & OPEN:
        yield f"public contracts cite {listed(*sorted(OPEN))}"
    elif not is_in_code and not names.keys() & OPEN and names.keys() & {CODE, PROOFS}:
        yield f"no public contract cites it: it belongs in {home}{FOLDER}/"
    elif not is_in_code and names.keys() & {CODE, PROOFS}:
        yield f"no public contract cites {listed(CODE, PROOFS)}: they belong in {home}{FOLDER}/"


def misplaced(reached: Reached) -> Iterator[str]:
    """A line for each thing that is wrong with a file of specs/."""
    cited = cited_by_others(reached)
    for file in reached.repository.of("specs"):
        if file.definitions:
            faults = faults_of(file, names_by_class(reached, file), file.module in cited)
            yield from (f"{file.path}: {fault}" for fault in faults)
