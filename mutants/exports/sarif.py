"""The survivors of a check in SARIF 2.1.0 (OASIS), which forges show beside the lines of a program."""

import hashlib
import json
from collections.abc import Sequence
from functools import partial
from pathlib import Path
from typing import Any
from urllib.parse import quote

from mutants import __version__
from mutants.checks.checking import Checked
from mutants.checks.summary import changed_text
from mutants.exports.mutation_report import in_file
from mutants.operators import NAMES
from mutants.texts.cards import cards_of, source_lines
from mutants.texts.lines import Mutant
from mutants.texts.spans import Places, Span, placed
from mutants.texts.twins import names_text, twins_in

VERSION, SCHEMA = "2.1.0", "https://json.schemastore.org/sarif-2.1.0.json"
ASKED = "On what values does the changed line do something else? Where there are none, the mutant is equivalent."


def region(span: Span) -> dict[str, int]:
    """A span; columns count characters from 1, and the end stands behind the last one."""
    (first, begin), (last, end) = span
    return {"startLine": first, "startColumn": begin, "endLine": last, "endColumn": end}


def rule(op: str) -> dict[str, Any]:
    name = "".join(word.capitalize() for word in NAMES[op].split())
    return {"id": op, "name": name, "shortDescription": {"text": NAMES[op]}}


def result(twins: Sequence[Mutant], statement: str, span: Span, uri: str, ops: Sequence[str]) -> dict[str, Any]:
    """A survivor with all its names. A forge finds it again by its texts, also where its line has moved."""
    first = twins[0]
    message = f"{names_text(twins)} survives: {changed_text(statement, first.text)}. {ASKED}"
    print_of = hashlib.sha256(f"{first.op}\n{statement}\n{first.text}".encode()).hexdigest()
    place = {"artifactLocation": {"uri": uri}, "region": region(span)}
    return {
        "ruleId": first.op,
        "ruleIndex": ops.index(first.op),
        "level": "warning",
        "message": {"text": message},
        "locations": [{"physicalLocation": place}],
        "partialFingerprints": {"texts/v1": print_of},
    }


def results(checked: Checked, uri: str, ops: Sequence[str]) -> list[dict[str, Any]]:
    cards = {card.line: card for card in cards_of(checked.shown)}
    written = partial(in_file, source_lines(checked.file))
    survivors = []
    for twins in twins_in(checked.report.survivors):
        line, statement = twins[0].line, checked.statements[twins[0].line]
        span, _ = placed(Places(cards[line], statement), statement, twins[0].text)
        survivors.append(result(twins, statement, written(span), uri, ops))
    return survivors


def sarif_text(checked: Checked, program: Path, remark: str = "") -> str:
    """The whole log, of one run."""
    ops = sorted({mutant.op for mutant in checked.report.survivors})
    driver: dict[str, object] = {"name": "mutants", "version": __version__, "rules": list(map(rule, ops))}
    driver |= {"fullDescription": {"text": remark}} if remark else {}
    run = {
        "tool": {"driver": driver},
        "columnKind": "unicodeCodePoints",
        "results": results(checked, quote(program.as_posix()), ops),
    }
    return json.dumps({"$schema": SCHEMA, "version": VERSION, "runs": [run]}, ensure_ascii=False) + "\n"
