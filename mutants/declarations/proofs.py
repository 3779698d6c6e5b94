"""Mutants that are proved equivalent. They are declared automatically, and kept apart from those that a person
declares."""

from collections.abc import Collection, Iterable, Mapping, Sequence
from types import MappingProxyType
from typing import NamedTuple

from mutants.english import plural
from mutants.texts.lines import Mutant
from mutants.texts.proofs import Answer, Candidate, Left, Proof, meaning_of
from mutants.texts.reports import Count, Row, score_of
from mutants.texts.twins import name_of

PROVED = "proved"
# A job declares no mutant with a greater number.
MOST = 1_048_575
NO_NAMES: Collection[str] = frozenset()


class Proofs(NamedTuple):
    """What is proved of the mutants of a program: how many steps each has to spare, by its name; or why nothing was
    asked. `declared` are the names that a person declares, whether they are proved or not. Proofs with steps to spare
    are of the first `tests` tests of a suite. `unfinished` mutants were left at the bound on work. `candidates` are
    tests that may kill others, `left` has where proofs of others were given up, by name, and `is_asked` says that the
    program equivalents has answered."""

    spares: Mapping[str, int] = MappingProxyType({})
    declared: Collection[str] = NO_NAMES
    not_asked: str = ""
    remark: str = ""
    tests: int = 0
    unfinished: int = 0
    candidates: Sequence[Candidate] = ()
    left: Mapping[str, Left] = MappingProxyType({})
    is_asked: bool = False

    @property
    def names(self) -> list[str]:
        """The mutants that are declared by their proofs alone."""
        return [name for name in self.spares if name not in self.declared]

    def is_alone(self, name: str) -> bool:
        """Whether a mutant is declared by its proof alone."""
        return name in self.spares and name not in self.declared

    def has_spare(self, name: str) -> bool:
        """Whether a mutant is proved with steps to spare, and so only for the tests as they are."""
        return self.spares.get(name, 0) > 0

    def for_all_tests(self) -> "Proofs":
        """The proofs that hold for every test that anybody will ever write: all without steps to spare."""
        return self._replace(spares={name: 0 for name, spare in self.spares.items() if not spare})

    def reason(self, name: str) -> str:
        """The reason why a mutant is equivalent, if it is proved; else no text."""
        return f"{PROVED} {meaning_of(self.spares[name])}" if name in self.spares else ""

    def left_open(self) -> str:
        """One sentence where not all mutants were asked about to the end; else no text."""
        if self.not_asked:
            return f"Which mutants can be proved equivalent was not asked: {self.not_asked}."
        unfinished = plural(self.unfinished, "mutant")
        return f"The program equivalents stopped at its bound of work for {unfinished}." if self.unfinished else ""


NO_PROOFS = Proofs()


def proofs_of(answer: Answer, declared: Collection[str] = NO_NAMES, remark: str = "", tests: int = 0) -> Proofs:
    """The proofs of mutants that a job may declare."""
    spares = {name_of(proof.mutant): proof.spare for proof in answer.proofs if proof.mutant.place <= MOST}
    left = {name_of(each): each for each in answer.left}
    more = answer.unfinished, answer.candidates, left
    return Proofs(spares, frozenset(declared), "", remark, tests, *more, is_asked=True)


def assert_listed(proved: Iterable[Proof], listed: Iterable[Mutant]) -> None:
    """Refuses proofs of mutants that are not on the list of mothra: then the two programs are built of different
    sources."""
    known = set(listed)
    for proof in proved:
        if proof.mutant not in known:
            raise ValueError(
                f"equivalents names {name_of(proof.mutant)}, which is another mutant in the list of mothra: build both"
                " programs of the same sources, or call with --no-proofs"
            )


def count_of_proved(rows: Iterable[Row], proofs: Proofs) -> int:
    """How many mutants do not count since they are proved equivalent, and for no other reason."""
    return sum(row.status == "E" and proofs.is_alone(name_of(row)) for row in rows)


def score_without(count: Count, proved: int) -> str:
    """The score as it would be if the `proved` mutants were not declared: in percent, and over how many mutants."""
    other = count._replace(equivalent=count.equivalent - proved)
    return f"{score_of(other)} %: {other.killed} of {plural(other.wanted, 'mutant')} killed"


def is_killed_later(row: Row, proofs: Proofs) -> bool:
    """Whether a mutant with steps to spare is killed only by tests that came after those of its proof."""
    return proofs.has_spare(name_of(row)) and row.status in "WK" and "1" not in row.bits[: proofs.tests]


def killed_later(rows: Iterable[Row], proofs: Proofs) -> list[str]:
    """The mutants with steps to spare that are killed by tests which came later."""
    return [name_of(row) for row in rows if is_killed_later(row, proofs)]


def wrongly_proved(rows: Iterable[Row], proofs: Proofs) -> list[str]:
    """The mutants that are proved equivalent and that a test kills. There are none where both programs are proved."""
    killed = [row for row in rows if row.status in "WK" and name_of(row) in proofs.spares]
    return [name_of(row) for row in killed if not is_killed_later(row, proofs)]


def wrongly_declared(rows: Iterable[Row], proofs: Proofs) -> list[str]:
    """The mutants that a person declares equivalent and that a test kills."""
    return [name_of(row) for row in rows if row.status == "W" and not proofs.is_alone(name_of(row))]


def decided_text(count: Count, proved: int, proofs: Proofs) -> str:
    """In words, how many mutants are killed, proved equivalent, and neither, where it was asked what is proved. What a
    person declares does not count."""
    total = count.wanted + proved
    parts = f"{count.killed} killed, {proved} {PROVED} equivalent, {count.survived} undecided"
    return f"Of {plural(total, 'mutant')}: {parts}." if proofs.is_asked and total else ""


def left_out_text(count: Count, proved: int) -> str:
    """In words, which mutants a score does not count; no text where it counts all."""
    declared = count.equivalent - proved
    parts = [f"{declared} declared"] if declared else []
    parts += [f"{proved} {PROVED}"] if proved else []
    return f", not counting {' and '.join(parts)} equivalent" if parts else ""
