"""Lists of mutants: what `mothra list` writes."""

import re

from mutants.texts.lines import NUMBER, Mutant, assert_numbered, lines_of_text, mutant_of


def read_count(line: str, what: str) -> tuple[str, int]:
    """The operator of a line, and how many mutants it has."""
    match = re.fullmatch(rf"([A-Z]{{3}}) {NUMBER}", line)
    if not match:
        raise ValueError(f"{what} has a line that is none: {line[:60]}")
    return match[1], int(match[2])


def read_list(text: str) -> tuple[dict[str, int], list[Mutant]]:
    """The number of mutants of each operator, and the mutants."""
    *lines, last = lines_of_text(text, "the list")
    totals: dict[str, int] = {}
    mutants: list[Mutant] = []
    for line in lines:
        mutant = mutant_of(line)
        if mutant:
            mutants.append(mutant)
        else:
            op, total = read_count(line, "the list")
            totals[op] = total
    if last != f"TOTAL {sum(totals.values())}":
        raise ValueError("the list is cut short: its last line has not the sum of its counts")
    assert_numbered(mutants, totals, "the list")
    return totals, mutants
