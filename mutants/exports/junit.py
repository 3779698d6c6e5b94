"""A check as a report of tests in the XML of JUnit:
a test case for each line with mutants, failed where some survive."""

from collections.abc import Sequence
from pathlib import Path
from xml.etree.ElementTree import Element, SubElement, indent, tostring

from mutants.checks.checking import Checked
from mutants.english import plural
from mutants.pages.report import by_line, counts_by_line
from mutants.texts.lines import Mutant
from mutants.texts.reports import Count
from mutants.texts.twins import names_text, twins_in
from mutants.words import visible


def add(parent: Element, tag: str, **values: object) -> Element:
    return SubElement(parent, tag, {key: visible(value) for key, value in values.items()})


def add_failure(case: Element, survivors: Sequence[Mutant], count: Count) -> None:
    verb = "survives" if len(survivors) == 1 else "survive"
    message = f"{len(survivors)} of {plural(count.total, 'mutant')} {verb}"
    lines = [f"{names_text(twins)}: {twins[0].text}" for twins in twins_in(survivors)]
    add(case, "failure", message=message, type="survivors").text = visible("\n".join(lines))


def junit_text(checked: Checked, program: Path, remark: str = "") -> str:
    """The whole report."""
    counts, survivors = counts_by_line(checked.listed, checked.report.rows), by_line(checked.report.survivors)
    root = Element("testsuites")
    totals: dict[str, object] = {"tests": len(counts), "failures": len(survivors), "errors": 0, "skipped": 0, "time": 0}
    suite = add(root, "testsuite", name=checked.report.unit, **totals)
    if remark:
        add(add(suite, "properties"), "property", name="remark", value=remark)
    for line in sorted(counts):
        attributes = {"name": f"line {line}: {checked.statements[line]}", "classname": program.as_posix(), "time": 0}
        case = add(suite, "testcase", **attributes)
        if line in survivors:
            add_failure(case, survivors[line], counts[line])
    indent(root)
    return f'<?xml version="1.0" encoding="UTF-8"?>\n{tostring(root, encoding="unicode")}\n'
