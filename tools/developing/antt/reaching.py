"""What is reached from clauses and from proofs: the class of each definition."""

from collections.abc import Iterable, Iterator, Mapping
from pathlib import Path
from typing import NamedTuple

from developing.antt.clauses import CALLED, CODE, LAWS, PUBLIC, Crate, calls_of, read_crate
from developing.antt.repository import Definition, Node, Repository, citations_of

PROOFS, NOTHING = "proofs", "nothing"
# The classes: each has what those before it do not reach. And the classes that a reader of public contracts meets.
CLASSES = (CALLED, PUBLIC, LAWS, CODE, PROOFS, NOTHING)
OPEN = {CALLED, PUBLIC, LAWS}


class Reached(NamedTuple):
    """The repository, what each definition of specs/ cites, and its class."""

    repository: Repository
    graph: Mapping[Node, set[Node]]
    classes: Mapping[Node, str]

    def definitions(self) -> Iterator[Definition]:
        return (definition for file in self.repository.of("specs") for definition in file.definitions)

    def class_of(self, definition: Definition) -> str:
        return self.classes.get(definition.node, NOTHING)


def closure(graph: Mapping[Node, set[Node]], start: Iterable[Node]) -> set[Node]:
    """All that is cited from these on, directly or through others, with these themselves."""
    reached, ahead = set(start), list(start)
    while ahead:
        fresh = graph.get(ahead.pop(), set()) - reached
        reached |= fresh
        ahead += fresh
    return reached


def cited_by_proofs(repository: Repository, crates: Iterable[Crate]) -> set[Node]:
    """What the files of proofs/ cite, and what attributes of the code name for its proofs."""
    cited = [citations_of(repository, file).values() for file in repository.of("proofs")]
    return set[Node]().union(*(nodes for several in cited for nodes in several), *(crate.proofs for crate in crates))


def reach(root: Path) -> Reached:
    """Reads all crates below a folder."""
    repository = Repository(root)
    calls = calls_of(repository)
    crates = [read_crate(repository, name, calls) for name in repository.crates]
    graph: dict[Node, set[Node]] = {}
    for file in repository.of("specs"):
        graph |= citations_of(repository, file)
    for crate in crates:
        # What a type says of its values is reached where the type is.
        graph |= crate.types
    starts = {kind: {node for crate in crates for each in crate.clauses if each.kind == kind for node in each.nodes}
              for kind in CLASSES[:4]}  # fmt: skip
    starts[PROOFS] = cited_by_proofs(repository, crates)
    classes: dict[Node, str] = {}
    for kind, start in starts.items():
        classes |= {node: kind for node in closure(graph, start) if node not in classes}
    return Reached(repository, graph, classes)
