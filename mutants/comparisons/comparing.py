"""A comparison of two states: what became of the mutants and the tests that both have, and what only one has."""

from collections.abc import Sequence
from typing import NamedTuple

from mutants.comparisons.matching import Matched, Pair, matched, tests_matched
from mutants.comparisons.states import State, Verdict
from mutants.texts.lines import Mutant


class Change(NamedTuple):
    """A mutant of both states as it is now, and the tests that matter: those that kill it now, or did before."""

    mutant: Mutant
    tests: tuple[int, ...]
    is_declared: bool


class TestChange(NamedTuple):
    """A test of both states, by its numbers, with the mutants of both that it kills now alone, or did before alone."""

    old: int
    new: int
    gained: list[Mutant]
    lost: list[Mutant]


class Comparison(NamedTuple):
    old: State
    new: State
    matched: Matched
    newly_killed: list[Change]
    newly_surviving: list[Change]
    # Survivors that are declared equivalent since then, and those that are no longer declared; and the same by proofs.
    declared: list[Mutant]
    undeclared: list[Mutant]
    proved: list[Mutant]
    unproved: list[Mutant]
    tests: list[TestChange]
    # The numbers of the tests that are in both states; of the others those of one are the rest.
    same_tests: list[tuple[int, int]]
    remarks: list[str]

    @property
    def how_of_tests(self) -> str:
        return "by their values" if self.old.statements and self.new.statements else "by number"


def with_ops(state: State, ops: Sequence[str]) -> State:
    """What a state says of the mutants of some operators."""
    return state._replace(ops=ops, verdicts=[each for each in state.verdicts if each.mutant.op in ops])


def remarks_on(old: State, new: State, ops: Sequence[str]) -> list[str]:
    """What one has to know beside the two lists, in sentences."""
    lines = []
    rest = [op for state in (old, new) for op in state.ops if op not in ops]
    if rest:
        compared_ops = ", ".join(ops) or "no operator"
        lines.append(f"Compared are the mutants of {compared_ops}: the others are in one file alone.")
    if old.steps != new.steps:
        lines.append(f"The limit on steps was {old.steps}, and is {new.steps}.")
    lines += [f"Left out of {name}: {each}." for name, state in (("OLD", old), ("NEW", new)) for each in state.left_out]
    return lines + list(dict.fromkeys(state.remark for state in (old, new) if state.remark))


def change_of_test(old: int, new: int, mutants: Matched) -> TestChange:
    gained = [now.mutant for before, now in mutants.pairs if new in now.killers and old not in before.killers]
    lost = [now.mutant for before, now in mutants.pairs if old in before.killers and new not in now.killers]
    return TestChange(old, new, gained, lost)


def newly_killed(pairs: Sequence[Pair]) -> list[Pair]:
    return [(before, now) for before, now in pairs if now.is_killed and not before.is_killed]


def newly_surviving(pairs: Sequence[Pair]) -> list[Pair]:
    """The mutants that were killed and survive. One that is proved equivalent now can be killed by no test: the program
    has changed, or its tests leave room for more steps."""
    return [(before, now) for before, now in pairs if before.is_killed and not now.is_killed and not now.is_proved]


def in_common(old: State, new: State) -> tuple[State, State]:
    """What both states say of the operators that both have."""
    ops = [op for op in new.ops if op in old.ops]
    return with_ops(old, ops), with_ops(new, ops)


def compared(old: State, new: State) -> Comparison:
    """The comparison of two states, by the operators that both have."""
    one, other = in_common(old, new)
    mutants = matched(one, other)
    # Survivors before and now.
    alive: list[tuple[Verdict, Verdict]] = [(b, n) for b, n in mutants.pairs if not b.is_killed and not n.is_killed]
    by_word = [(b, n) for b, n in alive if not b.is_proved and not n.is_proved]
    tests = tests_matched(old.tests, new.tests)
    changes = [change_of_test(*pair, mutants) for pair in tests]
    return Comparison(
        one,
        other,
        mutants,
        [Change(n.mutant, n.killers, n.status == "W") for _, n in newly_killed(mutants.pairs)],
        [Change(n.mutant, b.killers, n.status == "E") for b, n in newly_surviving(mutants.pairs)],
        [n.mutant for b, n in by_word if (b.status, n.status) == ("S", "E")],
        [n.mutant for b, n in by_word if (b.status, n.status) == ("E", "S")],
        [n.mutant for b, n in mutants.pairs if n.is_proved and not b.is_proved],
        [n.mutant for b, n in alive if b.is_proved and not n.is_proved],
        [change for change in changes if change.gained or change.lost],
        tests,
        remarks_on(old, new, one.ops),
    )
