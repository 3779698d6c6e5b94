"""The faults of a unit beside its first one, as a list with the line of each."""

import json
import re
import textwrap
from collections.abc import Sequence

from mutants.english import joined_words
from mutants.explanations.marks import places
from mutants.explanations.meanings import MEANINGS
from mutants.explanations.spans import Marked
from mutants.explanations.sweep import SourceFault, all_faults
from mutants.program.calling import call, failure_of
from mutants.statuses import SUCCESS
from mutants.texts.cards import source_lines

WIDTH, LONGEST = 100, 60
# How many faults after the first are explained; of the others only the lines are named.
IN_WORDS = 10


def asked_fault(program: str, source: str) -> tuple[str, str] | None:
    """What the program says against a source: the code and the detail of its fault; None where it has none."""
    # One short list is enough: the program has to read and check the unit for it.
    text, status = call(program, ["list", "--ops", "SDL"], json.dumps({"source": source}).encode())
    if status == SUCCESS:
        return None
    word, code, *detail = [*failure_of(text, status).split(" ", 2), ""]
    return (code, detail[0]) if word == "FAULT" else ("", "")


def places_if_any(fault: SourceFault, source: str) -> Marked:
    """Marks and notes of a fault; none where its statement is only in the copy, as on a line that was no line."""
    try:
        return places(fault.code, MEANINGS[fault.code].detail, fault.detail, source)
    except ValueError:
        return [], []


def line_of(fault: SourceFault, source: str) -> int:
    """The line of a fault; 0 where it is one of the unit as a whole."""
    if MEANINGS[fault.code].detail == "line":
        return int(fault.detail)
    marks, _ = places_if_any(fault, source)
    return marks[0].line if marks else 0


def head_of(fault: SourceFault, source: str) -> str:
    """The line, the code and the text of a fault."""
    line, lines = line_of(fault, source), source_lines(source)
    whole = lines[line - 1][:72] if 0 < line <= len(lines) else ""
    # A line that is no line of a program is shown from its first column on, a statement without its label.
    is_statement = fault.code[0] != "F" and not re.search(r"[^ 0-9]", whole[:5])
    shown = whole[6 * is_statement :].strip()[:LONGEST]
    shown = "".join(character if character.isprintable() else "?" for character in shown)
    what = f"line {line}" if line else "the unit"
    name = f" {fault.detail}" if MEANINGS[fault.code].detail in ("name", "label") else ""
    return f"  {what}, {fault.code}{name}: {shown}".rstrip(": ")


def said_of(fault: SourceFault, source: str) -> str:
    """What is said of a fault: what is wrong; where it shows a habit, what that is and what to write instead."""
    _, notes = places_if_any(fault, source)
    return " ".join([*(f"{seen.says} {seen.advice}" for seen in fault.seen), *notes]) or MEANINGS[fault.code].says


def fault_lines(faults: Sequence[SourceFault], source: str, first: SourceFault) -> list[str]:
    """What is said of each fault, by line. Nothing is said twice."""
    known = {said_of(first, source): line_of(first, source)}
    lines: list[str] = []
    for each in faults:
        head, said = head_of(each, source), said_of(each, source)
        if known.get(said):
            lines.append(f"{head} (as on line {known[said]})")
            continue
        known[said] = line_of(each, source)
        lines.append(head + "\n" + textwrap.fill(said, WIDTH, initial_indent=" " * 6, subsequent_indent=" " * 6))
    return lines


def rest_lines(faults: Sequence[SourceFault], source: str, is_all: bool) -> list[str]:
    """What is said of those faults that are not explained."""
    lines = joined_words(dict.fromkeys(line_of(each, source) for each in faults))
    more = [f"{len(faults)} more stand on the lines {lines}."] if len(faults) > 1 else [f"1 more is on line {lines}."]
    beyond = "What is wrong beyond these can be told when they are mended."
    return [*(more if faults else []), *([] if is_all else [beyond])]


def other_faults_text(program: str, source: str, shown: str) -> str:
    """The faults behind the first one, by line, as text; empty where there are none.
    `shown` is the source as its file has it."""
    faults, is_all = all_faults(source, lambda text: asked_fault(program, text))
    if not faults[1:] and is_all or not faults:
        return "" if is_all else "\n".join(rest_lines([], shown, is_all)) + "\n"
    others = sorted(faults[1:], key=lambda each: line_of(each, shown))
    head = f"What else keeps the unit from being read ({len(others)}), the first fault taken out:"
    lines = fault_lines(others[:IN_WORDS], shown, faults[0])
    return "\n".join([*([head] if others else []), *lines, *rest_lines(others[IN_WORDS:], shown, is_all)]) + "\n"
