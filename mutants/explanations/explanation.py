"""The whole explanation of the line of a fault, as text in paragraphs."""

import textwrap

from mutants.explanations.jobs import notes_on
from mutants.explanations.marks import places, shown
from mutants.explanations.meanings import MEANINGS, Meaning
from mutants.explanations.seeing import advice_of_all, habits_seen, said_of_all
from mutants.explanations.words import words_say
from mutants.operators import NAMES
from mutants.texts.jobs import read_job

WIDTH = 100
BAD_LIST = "BAD OPERATOR LIST"
NUMBERED = ("line", "label", "test", "value", "entry")


def parts_of(line: str) -> tuple[str, str, str]:
    """The code of a fault and its detail."""
    word, code, *rest = line.split(" ", 2) + [""] * (2 - line.count(" "))
    if word != "FAULT" or code not in MEANINGS:
        raise ValueError(f"{line[:60]!r} is no line of a fault that is known")
    kind, detail = MEANINGS[code].detail, rest[0] if rest else ""
    if kind in NUMBERED and not (detail.isascii() and detail.isdecimal() and len(detail) < 11):
        raise ValueError(f"{line[:60]!r} has no number of a {kind}")
    return code, kind, detail


def wrapped(text: str) -> str:
    return textwrap.fill(text, WIDTH, break_long_words=False, break_on_hyphens=False)


def rule_text(meaning: Meaning) -> str:
    if not meaning.sections:
        return wrapped(meaning.rule)
    many = "section" if meaning.sections.replace(".", "").isdecimal() else "sections"
    return wrapped(f"The rule (ANSI X3.9-1978, {many} {meaning.sections}): {meaning.rule}")


def explained(line: str, text: bytes, program: str | None, words: list[str], shown_source: str | None = None) -> str:
    """The explanation of a line, in paragraphs. The source is shown as its file has it, where that is given."""
    code, kind, detail = parts_of(line)
    meaning = MEANINGS[code]
    parts = [f"{line}\n{wrapped(meaning.says)}"]
    notes, advice = notes_on(code, kind, detail, text, program, words), meaning.advice
    if code[0] in "FSC":
        job = read_job(text).source
        source = job if shown_source is None else shown_source
        marks, more = places(code, kind, detail, source)
        parts += ["\n".join(shown(source, marks))] if marks else []
        seen = habits_seen(code, detail, job)
        notes, advice = [*notes, *said_of_all(seen), *more], advice_of_all(seen, advice)
    parts += ["\n".join(note if note.startswith("  ") else wrapped(note) for note in notes)] if notes else []
    return "\n\n".join([*parts, rule_text(meaning), wrapped(f"What to do: {advice}")]) + "\n"


def explained_words(line: str, words: list[str]) -> str:
    text = words_say(words) if words else None
    text = text or f"The value of --ops is no list of operators' codes, joined by commas: {', '.join(NAMES)}."
    rule = "A rule of the words, which are read before the job: docs/LANGUAGE.md has them."
    return f"{line}\n{wrapped(text)}\n\n{wrapped(rule)}\n"
