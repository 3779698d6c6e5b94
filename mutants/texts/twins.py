"""Twins: mutants of a list that are the same program, since they make the same of the same statement.

Most are of different operators: M(I) becomes M(J) by AAR, which puts another array reference there, and by SVR, which
puts another variable in the place of I. Their verdicts are the same. The report counts each of them.
"""

from collections import defaultdict
from collections.abc import Iterable, Mapping
from itertools import groupby

from mutants.texts.lines import Mutant, Named
from mutants.texts.reports import Count, Row


def twins_in(listed: Iterable[Mutant]) -> list[list[Mutant]]:
    """The mutants in groups that are one program each, in the order of their first; most groups have one mutant."""
    groups: dict[tuple[int, str], list[Mutant]] = defaultdict(list)
    for mutant in listed:
        groups[mutant.line, mutant.text].append(mutant)
    return list(groups.values())


def name_of(mutant: Named) -> str:
    """The name by which pages show a mutant and declarations name it."""
    return f"{mutant.op} {mutant.place}"


def names_text(group: Iterable[Named]) -> str:
    """All names of a group, as `mutants declare` takes them: AAR 1, SVR 15; and for one operator ABS 1, 4."""
    parts = groupby(group, key=lambda mutant: mutant.op)
    return ", ".join(f"{op} {', '.join(str(mutant.place) for mutant in alike)}" for op, alike in parts)


def others_by_name(listed: Iterable[Mutant]) -> dict[str, list[Mutant]]:
    """The twins of each mutant that has some, by its name."""
    groups = [group for group in twins_in(listed) if len(group) > 1]
    return {name_of(each): [twin for twin in group if twin != each] for group in groups for each in group}


def count_of_programs(listed: Iterable[Mutant], rows: Iterable[Row]) -> Count:
    """How many different programs the mutants are, how many of these are killed, and how many are declared and not
    killed.

    A program is declared if one of its twins is.
    """
    statuses: Mapping[str, str] = {name_of(row): row.status for row in rows}
    groups = [{statuses[name_of(mutant)] for mutant in group} for group in twins_in(listed)]
    killed = sum(bool(group & {"K", "W"}) for group in groups)
    return Count(len(groups), killed, sum("E" in group for group in groups))
