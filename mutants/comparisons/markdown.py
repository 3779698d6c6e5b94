"""A comparison in Markdown, for a review."""

from collections.abc import Sequence

from mutants.comparisons.comparing import Comparison
from mutants.comparisons.states import State, Verdict, count_of
from mutants.comparisons.telling import (
    Item, items_of, items_of_changes, proof_lines, score_text, test_changes, verdicts_text,
)  # fmt: skip
from mutants.english import plural
from mutants.texts.markdown import cell, code, table

# So many rows stand unfolded.
UNFOLDED = 10


def folded(title: str, lines: Sequence[str], rows: int) -> list[str]:
    """A table under its title, folded where it is long."""
    if rows <= UNFOLDED:
        return [f"**{title}**", "", *lines, ""]
    return ["<details>", f"<summary>{title}</summary>", "", *lines, "", "</details>", ""]


def items_part(title: str, items: Sequence[Item], what: str = "") -> list[str]:
    """A table of mutants; nothing where there is none. `what` is the head of the column of remarks."""
    if not items:
        return []
    head = ["Mutant", "Line", "Change", *([what] if what else [])]
    rows = [
        [cell(item.names), item.line or "", code(item.change), *([cell(item.remark)] if what else [])] for item in items
    ]
    return folded(title, table(head, rows), len(rows))


def counts_table(old: State, new: State) -> list[str]:
    one, other = count_of(old.verdicts), count_of(new.verdicts)
    has_proofs = any(verdict.is_proved for state in (old, new) for verdict in state.verdicts)
    rows: list[list[object]] = [
        ["Tests", len(old.tests), len(new.tests)],
        ["Mutants", one.total, other.total],
        ["Killed", one.killed, other.killed],
        [f"Declared {'or proved ' * has_proofs}equivalent, not killed", one.equivalent, other.equivalent],
        ["Survivors", *(count.survived for count in (one, other))],
        ["Score", score_text(old), score_text(new)],
    ]
    return [*table(["", "Before", "Now"], rows), ""]


def alone_part(title: str, verdicts: Sequence[Verdict], state: State) -> list[str]:
    """The mutants of one state alone."""
    if not verdicts:
        return []
    alive = [verdict.mutant for verdict in verdicts if verdict.status == "S"]
    counted = f"{title}: {verdicts_text(verdicts)}"
    return items_part(f"{counted}; the survivors", items_of(alive, state)) or [f"{counted}.", ""]


def comparison_markdown(comparison: Comparison) -> str:
    """The whole text, without the paths of the files."""
    old, new, mutants = comparison.old, comparison.new, comparison.matched
    lost, killed = comparison.newly_surviving, comparison.newly_killed
    lines = [f"### Mutants of {cell(new.unit)}: {score_text(old)} before, {score_text(new)} now", ""]
    lines += counts_table(old, new)
    counted = f"{plural(len(lost), 'mutant')} that {'was' if len(lost) == 1 else 'were'} killed"
    title = f"{counted} {'survives' if len(lost) == 1 else 'survive'}"
    none = ["No mutant survives that was killed.", ""]
    lines += items_part(title, items_of_changes(lost, new), "Was killed by") or none
    lines += items_part(f"{plural(len(killed), 'mutant')} newly killed", items_of_changes(killed, new), "Killed by")
    lines += alone_part("New", mutants.added, new) + alone_part("Gone", mutants.gone, old)
    lines += items_part("Declared equivalent since then", items_of(comparison.declared, new))
    lines += items_part("Declared equivalent no more", items_of(comparison.undeclared, new))
    lines += proof_lines(comparison)
    rows = [[what, number, code(values), cell(kills)] for what, number, values, kills in test_changes(comparison)]
    lines += folded("Tests", table(["", "Test", "Values", "What it kills"], rows), len(rows)) if rows else []
    counted = f"{plural(len(mutants.pairs), 'mutant')} in both, matched {mutants.how}."
    lines += [f"{counted} Tests are matched {comparison.how_of_tests}."]
    lines += [cell(remark) for remark in comparison.remarks]
    return "\n".join(lines) + "\n"
