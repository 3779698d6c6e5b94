"""The clauses of the crates: which of them are promises to other crates, and which definitions each of them cites."""

import re
from collections.abc import Callable, Iterator
from functools import cache
from typing import NamedTuple

from developing.antt.contracts import GHOST, Part, clauses_of, owner_of
from developing.antt.crates import programs_of, with_those_below
from developing.antt.repository import LIBRARY, Node, Repository, Scope
from developing.antt.uses import uses_in
from developing.antt.visible import TYPE, Source, sources_of, visible_in

# The kinds of clauses, in this order: what the programs and their calls promise, what other calls promise, what an impl
# gives as a proof, and what only the crate itself sees.
CALLED, PUBLIC, LAWS, CODE = "program", "public", "laws", "code"
# Members of an impl that are proofs, or serve them.
PROVED = {"coded", "laws", "inverse", "inverse_ok", "size_decreases"}
# What a type says of all its values.
MODEL = re.compile(r"\bModel for\b")
OF_TYPE = {"Value", "view", "invariant"}
# The members of a block, what a file of code names, and proofs that its attributes name.
MEMBER = re.compile(r"^ {4}ghost (\w+)(?::| =) \{", re.M)
NAMED = re.compile(r"^use (\w+)::([^;]+);", re.M)
PROOF = re.compile(r"\b(\w+)((?:::\w+)*::(?:specs|proofs)(?:::[\w'-]+)+)")


class Clause(NamedTuple):
    """A clause: of which kind it is, and what it cites."""

    kind: str
    nodes: set[Node]


class Crate(NamedTuple):
    """What the code of a crate cites: by its clauses, by its types as such, and by attributes for its proofs."""

    clauses: list[Clause]
    types: dict[Node, set[Node]]
    proofs: set[Node]


class Calls(NamedTuple):
    """The programs, the crates that they stand on, and the calls of these that the programs name."""

    programs: list[str]
    crates: set[str]
    named: set[tuple[str, str]]


def calls_of(repository: Repository) -> Calls:
    programs = programs_of(repository.root, repository.crates)
    texts = [source.text for program in programs for source in sources_of(repository.root, program)]
    named = {(use[1], name) for text in texts for use in NAMED.finditer(text) for name in re.findall(r"\w+", use[2])}
    return Calls(programs, set[str]().union(*(with_those_below(repository.crates, each) for each in programs)), named)


def scopes_of(repository: Repository, source: Source) -> Callable[[str], Scope]:
    """What words stand for in the parts of a file with a head: by the imports of the file, and of the block."""
    top = [use for use in uses_in(source.text) if use.is_ghost and not use.indent]

    @cache
    def scope(head: str) -> Scope:
        blocks = [part.text for part in source.parts if not part.name and part.head == head]
        inner = [use for block in blocks for use in uses_in(block) if use.is_ghost and use.indent]
        return Scope(repository, [*top, *inner])

    return scope


def texts_of(part: Part) -> list[tuple[str, str]]:
    """The clauses of a part, each with its name: a ghost value of a call may have that of a clause."""
    if not part.name:
        return list(clauses_of(part.text, MEMBER).items())
    return [*clauses_of(part.text, GHOST).items(), *clauses_of(part.text).items()]


def kind_of(calls: Calls, source: Source, part: Part, name: str, is_public: bool) -> str:
    if source.crate in calls.programs or (source.crate, part.name) in calls.named and not part.head:
        return CALLED
    if not is_public or source.crate not in calls.crates:
        return CODE
    return LAWS if not part.name and name in PROVED else PUBLIC


def is_of_type(part: Part, name: str) -> bool:
    """Whether a clause says something of all values of a type: a ghost field, or the model."""
    if part.name:
        return False
    is_type = TYPE.match(part.head) is not None and not re.search(r"\btrait\b", part.head)
    return name in OF_TYPE if MODEL.search(part.head) else is_type


def proofs_in(repository: Repository, source: Source) -> Iterator[Node]:
    """What the attributes of a file cite for its proofs."""
    for root, path in PROOF.findall(source.text):
        crate = source.crate if root == "crate" else root
        yield from repository.named(f"{LIBRARY}.{crate}{path.replace('::', '.')}")


def read_crate(repository: Repository, crate: str, calls: Calls) -> Crate:
    sources = sources_of(repository.root, crate)
    visible = visible_in(sources)
    answer = Crate([], {}, set())
    for source in sources:
        answer.proofs.update(proofs_in(repository, source))
        scope = scopes_of(repository, source)
        for part in source.parts:
            is_public = visible.is_public(source.module, part)
            for name, text in texts_of(part):
                nodes = scope(part.head).nodes(text)
                answer.clauses.append(Clause(kind_of(calls, source, part, name, is_public), nodes))
                if is_of_type(part, name):
                    answer.types.setdefault(Node(crate, "", owner_of(part.head)), set()).update(nodes)
    return answer
