"""Which mutants of the present program are meant by declarations that were made for an earlier one.

An entry is settled where its two texts are those of a mutant of its operator on exactly one line: it means that mutant,
whatever its number has become. Where the texts stand on no line, the entry is refused. Where they stand on several
lines, the statements around them decide: the texts have to stand on as many lines as before, and on just one of these
the statements up to it, or those from it on, have to be what they were. Else the entry is refused.
"""

import hashlib
from collections import defaultdict
from collections.abc import Mapping, Sequence
from typing import NamedTuple

from mutants.declarations.entries import Entry
from mutants.english import joined_words, plural
from mutants.texts.lines import Mutant

# How many moved entries are named, and how many digits of a digest stand for the statements on a side.
NAMED, DIGITS = 3, 12


class Present(NamedTuple):
    """The present program: its statements by line, and all mutants of some operators."""

    statements: Mapping[int, str]
    listed: Sequence[Mutant]

    def texts_of(self, mutant: Mutant) -> tuple[str, str, str]:
        return mutant.op, self.statements[mutant.line], mutant.text

    def sides(self, line: int) -> tuple[str, str]:
        """The digests of the statements up to that of a line, and from it on."""
        lines = sorted(self.statements)
        at = lines.index(line)
        parts = lines[: at + 1], lines[at:]
        front, rest = (
            hashlib.sha256("\n".join(self.statements[each] for each in part).encode()).hexdigest() for part in parts
        )
        return front[:DIGITS], rest[:DIGITS]

    def where(self, line: int, count: int) -> str:
        """What the column `where` says of a line, where the texts stand on `count` lines."""
        return ":".join([str(count), *self.sides(line)])


class Declared(NamedTuple):
    """A mutant that is declared, and the entry that says so."""

    mutant: Mutant
    entry: Entry

    @property
    def name(self) -> str:
        return f"{self.mutant.op} {self.mutant.place}"

    @property
    def reason(self) -> str:
        return self.entry.reason


class Settled(NamedTuple):
    """The declared mutants in the order of the entries; entries with a new number;
    entries that are refused, and why."""

    declared: list[Declared]
    moved: list[tuple[Entry, Mutant]]
    refused: list[tuple[Entry, str]]

    @property
    def names(self) -> list[str]:
        """The names of the mutants, as a job declares them."""
        return [each.name for each in self.declared]

    @property
    def reasons(self) -> dict[str, str]:
        return {each.name: each.reason for each in self.declared}

    def remarks(self) -> list[str]:
        """Remarks in sentences on entries that have a new number or are refused."""
        return moved_remarks(self.moved) + [f"{entry.name} is not declared: {why}" for entry, why in self.refused]


def moved_remarks(moved: Sequence[tuple[Entry, Mutant]]) -> list[str]:
    """One sentence on the entries that have a new number."""
    if not moved:
        return []
    named = [f"{entry.name} is now {mutant.op} {mutant.place}" for entry, mutant in moved[:NAMED]]
    more = f" and {len(moved) - NAMED} more" if len(moved) > NAMED else ""
    moves = f"{plural(len(moved), 'declared mutant')} found by the texts under a new number: {', '.join(named)}{more}"
    return [f"{moves} (mutants declare --renew writes the numbers of now)"]


def why_not_there(entry: Entry, present: Present) -> str:
    """Why an entry is refused whose texts stand nowhere."""
    lines = [line for line, text in present.statements.items() if text == entry.before]
    if not lines:
        return f"no statement is {entry.before} any more"
    where = f"line{'s' if len(lines) > 1 else ''} {joined_words(lines)}"
    return f"{entry.before} stands on {where}, but no mutant of {entry.op} makes {entry.after} of it"


def why_unclear(entry: Entry, lines: Sequence[int]) -> str:
    """Why an entry is refused whose texts stand on several lines, or stood on several."""
    where = f"its texts stand on line{'s' if len(lines) > 1 else ''} {joined_words(lines)}"
    if entry.where:
        return f"{where}, and before and behind them the program has changed since one was meant: declare it again"
    return f"{where}, and which is meant is not said: declare it again"


class Settling:
    """Settles entries one after the other. No mutant is taken twice."""

    def __init__(self, present: Present) -> None:
        self.present = present
        self.taken: set[Mutant] = set()
        self.by_texts: dict[tuple[str, str, str], list[Mutant]] = defaultdict(list)
        for mutant in present.listed:
            self.by_texts[present.texts_of(mutant)].append(mutant)

    def meant(self, entry: Entry) -> Mutant | str:
        """The mutant that an entry means, or why there is none."""
        alike = self.by_texts.get(entry.texts, [])
        if not alike:
            return why_not_there(entry, self.present)
        lines = sorted({mutant.line for mutant in alike})
        at_number = [mutant for mutant in alike if mutant.place == entry.place]
        if entry.where or len(lines) > 1:
            lines_meant = self.lines_meant(entry, lines)
            if len(lines_meant) != 1:
                return why_unclear(entry, lines)
            alike = [mutant for mutant in alike if mutant.line in lines_meant]
        # On one line these mutants are one program, so it does not matter which is taken.
        free = [mutant for mutant in at_number if mutant in alike] + alike
        return next(
            (mutant for mutant in free if mutant not in self.taken), "an earlier entry declares the same mutant"
        )

    def lines_meant(self, entry: Entry, lines: Sequence[int]) -> list[int]:
        """Those of the lines where the statements on one side at least are what they were."""
        count, _, sides = entry.where.partition(":")
        front, _, rest = sides.partition(":")
        if count != str(len(lines)) or not (front and rest):
            return []
        now = {line: self.present.sides(line) for line in lines}
        return [line for line in lines if now[line][0] == front or now[line][1] == rest]

    def settle(self, entries: Sequence[Entry]) -> dict[int, Mutant | str]:
        """For each entry, by its place, the mutant, or why there is none. Entries whose numbers still hold are settled
        first."""
        by_name = {(mutant.op, mutant.place): mutant for mutant in self.present.listed}
        answers: dict[int, Mutant | str] = {}

        def holds(place: int) -> bool:
            mutant = by_name.get((entries[place].op, entries[place].place))
            return mutant is not None and self.present.texts_of(mutant) == entries[place].texts

        for place in sorted(range(len(entries)), key=lambda place: not holds(place)):
            answer = answers[place] = self.meant(entries[place])
            if isinstance(answer, Mutant):
                self.taken.add(answer)
        return answers


def settled(entries: Sequence[Entry], present: Present) -> Settled:
    """What the entries mean in the present program."""
    answers = Settling(present).settle(entries)
    result = Settled([], [], [])
    for place, entry in enumerate(entries):
        answer = answers[place]
        if isinstance(answer, str):
            result.refused.append((entry, answer))
            continue
        result.declared.append(Declared(answer, entry))
        if answer.place != entry.place:
            result.moved.append((entry, answer))
    return result


def entry_for(mutant: Mutant, reason: str, present: Present) -> Entry:
    """The entry that declares a mutant of the present program."""
    alike = {each.line for each in present.listed if present.texts_of(each) == present.texts_of(mutant)}
    where = present.where(mutant.line, len(alike)) if len(alike) > 1 else ""
    return Entry(mutant.op, mutant.place, present.statements[mutant.line], mutant.text, reason, where)
