"""Reports are joined: those of groups of operators, and those of batches of tests."""

from collections.abc import Sequence

from mutants.texts.reports import Report, Row, counted


def joined_operators(reports: Sequence[Report]) -> Report:
    """The reports of one job for different operators, in their order, as one report."""
    if len({report[:4] for report in reports}) != 1:
        raise ValueError("the reports of the operators are not of one job")
    counts = {op: count for report in reports for op, count in report.counts.items()}
    rows = [row for report in reports for row in report.rows]
    survived = [mutant for report in reports for mutant in report.survivors]
    return reports[0]._replace(counts=counts, rows=rows, survivors=survived)


def joined_row(rows: Sequence[Row]) -> Row:
    """The row of a mutant, with the tests of these rows one after the other."""
    bits, is_declared = "".join(row.bits for row in rows), rows[0].status in "EW"
    status = ("KW" if "1" in bits else "SE")[is_declared]
    return rows[0]._replace(status=status, bits=bits)


def what_batches_share(report: Report) -> object:
    """What is the same in the reports of all batches: the head without the tests, the mutants, and which are
    declared."""
    mutants = [(*row[:3], row.status in "EW") for row in report.rows]
    return report.unit, report.steps, report.every, list(report.counts), mutants


def joined_batches(reports: Sequence[Report]) -> Report:
    """The reports of one program and the same operators for parts of a suite, in their order, as one report."""
    first = reports[0]
    shared = what_batches_share(first)
    if any(what_batches_share(report) != shared for report in reports):
        raise ValueError("the reports of the batches are not of the same mutants")
    rows = [joined_row(alike) for alike in zip(*(report.rows for report in reports))]
    alive = {row[:3] for row in rows if row.status == "S"}
    survived = [[mutant for mutant in report.survivors if mutant[:3] in alive] for report in reports]
    if any(each != survived[0] for each in survived):
        raise ValueError("the reports of the batches do not say the same of their survivors")
    tests = sum(report.tests for report in reports)
    return first._replace(tests=tests, counts=counted(rows, first.counts), rows=rows, survivors=survived[0])
