"""What the texts of a comparison share: mutants of one program together, names, tests, sentences on counts."""

from collections.abc import Iterable, Iterator, Mapping, Sequence
from typing import NamedTuple

from mutants.checks.summary import changed_text
from mutants.comparisons.comparing import Change, Comparison, TestChange
from mutants.comparisons.states import State, Verdict, count_of
from mutants.english import first_words, plural, tests_text
from mutants.pages.suite import shortened
from mutants.texts.lines import Mutant
from mutants.texts.reports import score_of
from mutants.texts.twins import names_text, twins_in

# So many mutants are named in a sentence.
NAMED = 5
UNKNOWN = "its text is in neither report"


class Item(NamedTuple):
    """A program that several mutants may be: their names, its line (0: unknown), its change, a remark on it."""

    names: str
    line: int
    change: str
    remark: str


def groups_of(mutants: Iterable[Mutant]) -> list[list[Mutant]]:
    """Twins together. Mutants whose text is unknown stand alone."""
    every = list(mutants)
    return twins_in(each for each in every if each.text) + [[each] for each in every if not each.text]


def change_text(mutant: Mutant, statements: Mapping[int, str]) -> str:
    """What a mutant changes; where its statement is unknown, the changed statement."""
    if not mutant.text:
        return UNKNOWN
    return changed_text(statements[mutant.line], mutant.text) if mutant.line in statements else mutant.text


def mutants_text(mutants: Sequence[Mutant]) -> str:
    """Mutants by name, the first few of many; twins count as one."""
    return first_words(list(map(names_text, groups_of(mutants))), NAMED)


def items_of_changes(changes: Sequence[Change], state: State) -> list[Item]:
    """Mutants that changed, each with the tests that matter."""
    by_mutant = {change.mutant: change for change in changes}
    items = []
    for group in groups_of(by_mutant):
        change = by_mutant[group[0]]
        remark = tests_text(change.tests) + (", declared equivalent" if change.is_declared else "")
        items.append(Item(names_text(group), group[0].line, change_text(group[0], state.statements), remark))
    return sorted(items, key=lambda item: item.line)


def items_of(mutants: Iterable[Mutant], state: State) -> list[Item]:
    items = [Item(names_text(g), g[0].line, change_text(g[0], state.statements), "") for g in groups_of(mutants)]
    return sorted(items, key=lambda item: item.line)


def score_text(state: State) -> str:
    """The score with a percent sign, or `no score` where there is none."""
    score = score_of(count_of(state.verdicts))
    return "no score" if score == "NONE" else f"{score} %"


def verdicts_text(verdicts: Sequence[Verdict]) -> str:
    count = count_of(verdicts)
    text = f"{plural(count.total, 'mutant')}, {count.killed} killed"
    return f"{text}, {count.equivalent} declared equivalent" if count.equivalent else text


def test_change_text(change: TestChange) -> str:
    """What a test kills now that it did not before, and the other way round."""
    parts = [f"kills {len(change.gained)} more: {mutants_text(change.gained)}"] if change.gained else []
    parts += [f"no longer kills {mutants_text(change.lost)}"] if change.lost else []
    return "; ".join(parts)


def value_text(state: State, number: int) -> str:
    """The values of a test; of a report alone they are unknown, and there is no text."""
    values = state.tests[number - 1]
    return "" if values == str(number) else shortened(values)


def others(state: State, same: Iterable[int]) -> list[int]:
    """The tests of a state that the other one has not."""
    known = set(same)
    return [number for number in range(1, len(state.tests) + 1) if number not in known]


def tests_alone(comparison: Comparison) -> tuple[list[int], list[int]]:
    """The tests of the old state alone, and those of the new one alone."""
    same = comparison.same_tests
    return others(comparison.old, (old for old, _ in same)), others(comparison.new, (new for _, new in same))


def kills_in(state: State, number: int) -> int:
    return sum(number in verdict.killers for verdict in state.verdicts)


def test_changes(comparison: Comparison) -> Iterator[tuple[str, int, str, str]]:
    """The tests that one state has alone, and those with other kills than before: what became of a test, its number,
    its values, and what changed in its kills."""
    old, new, (gone, added) = comparison.old, comparison.new, tests_alone(comparison)
    yield from (("new", each, value_text(new, each), f"kills {kills_in(new, each)}") for each in added)
    yield from (("gone", each, value_text(old, each), f"killed {kills_in(old, each)}") for each in gone)
    yield from (("changed", each.new, value_text(new, each.new), test_change_text(each)) for each in comparison.tests)


def proof_lines(comparison: Comparison) -> list[str]:
    """How many mutants are proved equivalent since then, and no more."""
    parts = (("Proved equivalent since then", comparison.proved), ("Proved equivalent no more", comparison.unproved))
    lines = [f"{what}: {plural(len(mutants), 'mutant')}." for what, mutants in parts if mutants]
    return [*lines, ""] if lines else []
