"""What is known of a job beside its texts; and its declared mutants in groups, those of a person and those of
proofs."""

from collections.abc import Callable, Iterable, Mapping, Sequence
from types import MappingProxyType
from typing import NamedTuple

from mutants.declarations.boxes import Searched
from mutants.declarations.proofs import NO_PROOFS, Proofs
from mutants.english import plural
from mutants.texts.jobs import Job
from mutants.texts.lines import Mutant
from mutants.texts.reports import Row
from mutants.texts.twins import name_of, twins_in

NO_REASON = "no reason is given"


class Said(NamedTuple):
    """What is known of a job beside its texts: the source as its file has it, reasons by mutant, remarks, what is
    proved of its mutants, the names of its tests, where they have some, and what searches of boxes found of mutants."""

    shown: str | None = None
    reasons: Mapping[str, str] = MappingProxyType({})
    remarks: Sequence[str] = ()
    proofs: Proofs = NO_PROOFS
    titles: Sequence[str] = ()
    boxes: Mapping[str, Searched] = MappingProxyType({})

    def shown_for(self, job: Job) -> str:
        """The source of a job as it is shown."""
        return job.source if self.shown is None else self.shown

    @property
    def all_reasons(self) -> dict[str, str]:
        """The reasons that a person gives, and for mutants that nobody declares the reason of the proof."""
        return {**{name: self.proofs.reason(name) for name in self.proofs.names}, **self.reasons}

    def killed_by_no_row(self, mutants: Iterable[Mutant]) -> int:
        """How many of these mutants are killed by no row of a box, where all rows of the box were tried."""
        return sum(name in self.boxes and not self.boxes[name].row for name in map(name_of, mutants))


NOTHING = Said()


class Group(NamedTuple):
    """Declared mutants that are one program and have the same reason: all of them, and the row of the first."""

    mutants: list[Mutant]
    row: Row
    reason: str


def declared_groups(
    listed: Iterable[Mutant], rows: Iterable[Row], reasons: Mapping[str, str], is_meant: Callable[[str], bool]
) -> list[Group]:
    """The declared mutants that are meant, in their order, but first those that a test kills. Twins with the same
    reason are one group."""
    declared = {name_of(row): row for row in rows if row.status in "WE" and is_meant(name_of(row))}
    groups: list[Group] = []
    for twins in twins_in(mutant for mutant in listed if name_of(mutant) in declared):
        by_reason: dict[str, list[Mutant]] = {}
        for mutant in twins:
            by_reason.setdefault(reasons.get(name_of(mutant), ""), []).append(mutant)
        groups += [Group(alike, declared[name_of(alike[0])], reason) for reason, alike in by_reason.items()]
    return sorted(groups, key=lambda group: group.row.status != "W")


def groups_of_person(listed: Iterable[Mutant], rows: Iterable[Row], said: Said) -> list[Group]:
    """The mutants that a person declares."""
    return declared_groups(listed, rows, said.reasons, lambda name: not said.proofs.is_alone(name))


def groups_of_proofs(listed: Iterable[Mutant], rows: Iterable[Row], said: Said) -> list[Group]:
    """The mutants that are declared by a proof alone."""
    return declared_groups(listed, rows, said.all_reasons, said.proofs.is_alone)


def proved_text(groups: Iterable[Group], proofs: Proofs) -> str:
    """How many mutants are proved equivalent, and how many of them with steps to spare."""
    names = [name_of(mutant) for group in groups for mutant in group.mutants]
    spare = sum(map(proofs.has_spare, names))
    some = "" if spare == len(names) else f"{spare} of them "
    return f"{plural(len(names), 'mutant')} proved equivalent" + (f", {some}with steps to spare" if spare else "")
