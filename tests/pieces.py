"""Stored reports cut into what batches of their tests and groups of their operators would give."""

from collections.abc import Iterable

import running
from mutants.texts.lines import Mutant
from mutants.texts.reports import Report, Row, counted

# That of the desk calculator is compared in tools/examples alone: to cut so long a report takes its time.
FOUND = sorted(path.name.removesuffix(".report") for path in (running.ROOT / "examples").glob("*.report"))
STORED = [name for name in FOUND if name != "desk"]


def stored(name: str) -> str:
    return running.example(name, ".report").read_text()


def row_of_batch(row: Row, bits: str) -> Row:
    status = ("KW" if "1" in bits else "SE")[row.status in "EW"]
    return row._replace(status=status, bits=bits)


def batch_of(whole: Report, first: int, last: int) -> Report:
    """The report that some tests of a suite have. What stands in the place of its own survivors is made up."""
    rows = [row_of_batch(row, row.bits[first:last]) for row in whole.rows]
    texts: dict[tuple[str, int, int], Mutant] = {mutant[:3]: mutant for mutant in whole.survivors}
    alive = [texts.get(row[:3], Mutant(*row[:3], 1, "CONTINUE")) for row in rows if row.status == "S"]
    return whole._replace(tests=last - first, counts=counted(rows, whole.counts), rows=rows, survivors=alive)


def group_of(whole: Report, ops: Iterable[str]) -> Report:
    rows = [row for row in whole.rows if row.op in ops]
    alive = [mutant for mutant in whole.survivors if mutant.op in ops]
    return whole._replace(counts=counted(rows, ops), rows=rows, survivors=alive)
