"""A comparison as a text for the terminal."""

from collections.abc import Iterator, Sequence
from itertools import groupby

from mutants.comparisons.comparing import Comparison
from mutants.comparisons.states import State, Verdict, count_of
from mutants.comparisons.telling import (
    Item, items_of, items_of_changes, proof_lines, score_text, test_changes, tests_alone, verdicts_text,
)  # fmt: skip
from mutants.english import plural

# So many mutants of a line are shown, and so wide is a name at least.
SHOWN, NAME = 8, 8


def state_line(name: str, path: object, state: State) -> str:
    count = count_of(state.verdicts)
    killed = f"{count.killed} of {plural(count.wanted, 'mutant')} killed"
    return f"{name}  {path}: {state.unit}, {plural(len(state.tests), 'test')}, {score_text(state)}: {killed}"


def item_lines(items: Sequence[Item], state: State, is_whole: bool) -> Iterator[str]:
    """The items by line; of many on a line some, where not all are wanted."""
    wide = max([NAME, *(len(item.names) for item in items)])
    for line, alike in groupby(items, key=lambda item: item.line):
        group = list(alike)
        shown = group if is_whole or len(group) <= SHOWN else group[: SHOWN - 1]
        yield f"line {line}: {state.statements[line]}" if line in state.statements else f"line {line or 'unknown'}:"
        for item in shown:
            yield f"  {item.names:<{wide}}  {item.change}" + (f": {item.remark}" if item.remark else "")
        if len(shown) < len(group):
            yield f"  {'':<{wide}}  and {len(group) - len(shown)} more"


def part(title: str, items: Sequence[Item], state: State, is_whole: bool = False) -> Iterator[str]:
    """A list under its title, and a blank line behind it; nothing where there is no item."""
    if items:
        yield title
        yield from item_lines(items, state, is_whole)
        yield ""


def alone_lines(title: str, verdicts: Sequence[Verdict], state: State) -> Iterator[str]:
    """The mutants of one state alone: counts, and those that survive."""
    if verdicts:
        alive = [verdict.mutant for verdict in verdicts if verdict.status == "S"]
        yield f"{title}: {verdicts_text(verdicts)}{'; the survivors:' if alive else '.'}"
        yield from item_lines(items_of(alive, state), state, is_whole=False)
        yield ""


def test_lines(comparison: Comparison) -> Iterator[str]:
    """The tests that one state has alone, and those with other kills than before."""
    gone, added = tests_alone(comparison)
    counts = f"{len(comparison.same_tests)} in both, {len(added)} new, {len(gone)} gone"
    yield f"Tests, matched {comparison.how_of_tests}: {counts}, {len(comparison.tests)} with other kills than before."
    for what, number, values, kills in test_changes(comparison):
        yield f"  {what:<7}  {number:>3}  {values}{': ' if values else ''}{kills}"


def comparison_text(comparison: Comparison, old_path: object, new_path: object) -> str:
    """The whole text. All mutants that were killed and survive are listed, and of other lists a part."""
    old, new = comparison.old, comparison.new
    lost, killed, mutants = comparison.newly_surviving, comparison.newly_killed, comparison.matched
    lines = [state_line("OLD", old_path, old), state_line("NEW", new_path, new)]
    lines += [f"{plural(len(mutants.pairs), 'mutant')} in both, matched {mutants.how}.", *comparison.remarks, ""]
    title = f"NEWLY SURVIVING: {plural(len(lost), 'mutant')}; behind each the tests that killed it."
    lines += part(title, items_of_changes(lost, new), new, is_whole=True)
    lines += [] if lost else ["No mutant survives that was killed.", ""]
    title = f"Newly killed: {plural(len(killed), 'mutant')}; behind each the tests that kill it."
    lines += part(title, items_of_changes(killed, new), new)
    lines += alone_lines("New", mutants.added, new)
    lines += alone_lines("Gone", mutants.gone, old)
    declared, undeclared = comparison.declared, comparison.undeclared
    lines += part(f"Declared equivalent since then: {plural(len(declared), 'mutant')}.", items_of(declared, new), new)
    title = f"Declared equivalent no more: {plural(len(undeclared), 'mutant')}."
    lines += part(title, items_of(undeclared, new), new)
    lines += proof_lines(comparison)
    lines += test_lines(comparison)
    return "\n".join(lines) + "\n"
