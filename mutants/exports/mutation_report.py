"""The mutants of a check in the JSON format that tools of mutation testing share for their reports."""

import json
from collections.abc import Callable, Mapping, Sequence
from functools import partial
from pathlib import Path
from typing import Any

from mutants import __version__
from mutants.checks.checking import Checked
from mutants.exports.rows import Record, records_of
from mutants.operators import NAMES
from mutants.pages.suite import values_of
from mutants.texts.cards import Place, cards_of, source_lines
from mutants.texts.spans import Places, Span, placed
from mutants.texts.tabs import written_column
from mutants.texts.twins import name_of

SCHEMA_VERSION = "2"
# From this score on, in percent, a file is shown as good, and below that one as bad.
HIGH, LOW = 80, 60
EQUIVALENT = "declared equivalent"
# What stands after the text of a mutant that has twins.
SAME = " (the same program as "


# The span in the file of a span of the source as it is shown.
InFile = Callable[[Span], Span]


def in_file(lines: Sequence[str], span: Span) -> Span:
    """A span of the source as a span of the file, of which these are the lines: they may have tabs."""
    (first, begin), (last, end) = span
    # The end is after a character, and not before one.
    return Span((first, written_column(lines[first - 1], begin)), (last, written_column(lines[last - 1], end - 1) + 1))


def position(place: Place) -> dict[str, int]:
    return {"line": place[0], "column": place[1]}


def location(span: Span) -> dict[str, dict[str, int]]:
    return {"start": position(span.start), "end": position(span.end)}


def description(record: Record) -> str:
    """What a mutant makes of its statement, and the names of those that make the same of it."""
    same = f"{SAME}{record.twins})" if record.twins else ""
    return f"{NAMES.get(record.mutant.op, record.mutant.op)}: {record.mutant.text}{same}"


def text_in(described: str) -> str:
    """The text of the mutant in its description."""
    return described.partition(": ")[2].partition(SAME)[0]


def config_object(checked: Checked) -> dict[str, Any]:
    """What a later comparison needs beside the mutants: what was asked, the statements, all values of the tests, and
    which mutants are declared only by a proof."""
    proofs = checked.said.proofs
    return {
        "unit": checked.report.unit,
        "steps": checked.report.steps,
        "operators": list(checked.report.counts),
        "leftOut": checked.left_out,
        "statements": {str(line): statement for line, statement in checked.statements.items()},
        "suite": checked.job.suite,
        "proved": [name_of(mutant) for mutant in checked.listed if proofs.is_alone(name_of(mutant))],
    }


def mutant_object(record: Record, places: Places, reason: str, written: InFile) -> dict[str, Any]:
    span, new = placed(places, record.before, record.mutant.text)
    entry: dict[str, Any] = {
        "id": record.name,
        "mutatorName": record.mutant.op,
        "description": description(record),
        "replacement": new,
        "location": location(written(span)),
        "status": record.status,
        "killedBy": list(map(str, record.killed_by)),
        "coveredBy": list(map(str, record.covered_by)),
    }
    if record.is_declared:
        what = EQUIVALENT if record.status == "Ignored" else f"{EQUIVALENT}, but a test kills it"
        entry["statusReason"] = f"{what}: {reason}" if reason else what
    return entry


def tests_object(suite: Sequence[Any]) -> dict[str, Any]:
    return {"tests": [{"id": str(number), "name": values_of(test)} for number, test in enumerate(suite, 1)]}


def mutant_objects(checked: Checked, covered: Mapping[int, str]) -> list[dict[str, Any]]:
    cards = {card.line: card for card in cards_of(checked.shown)}
    places = {line: Places(cards[line], checked.statements[line]) for line in covered}
    reasons, written = checked.said.all_reasons, partial(in_file, source_lines(checked.file))
    return [
        mutant_object(record, places[record.mutant.line], reasons.get(record.name, ""), written)
        for record in records_of(checked, covered)
    ]


def mutation_report_text(
    checked: Checked, covered: Mapping[int, str], program: Path, tests: Path, remark: str = ""
) -> str:
    """The whole report. A remark stands beside the name of what made it."""
    source = {"language": "fortran", "source": checked.file, "mutants": mutant_objects(checked, covered)}
    report = {
        "schemaVersion": SCHEMA_VERSION,
        "thresholds": {"high": HIGH, "low": LOW},
        "config": config_object(checked),
        "files": {program.as_posix(): source},
        "testFiles": {tests.as_posix(): tests_object(checked.job.suite)},
        "framework": {"name": f"mutants. {remark}" if remark else "mutants", "version": __version__},
    }
    return json.dumps(report, ensure_ascii=False) + "\n"
