"""Notes on the faults of the job itself: of its JSON, its suite, its declared mutants, or a run of its program."""

import json
import re
from collections.abc import Mapping, Sequence
from typing import Any

from mutants.english import plural
from mutants.explanations.ends import DEFAULT, end_notes
from mutants.jobs.cells import is_value
from mutants.operators import NAMES
from mutants.program.calling import Fault, answer
from mutants.texts.cards import cards_of
from mutants.texts.dummies import Dummy, read_head, read_unit

# So many characters of a value are shown.
LONGEST = 100


def short(value: object) -> str:
    text = json.dumps(value)
    return text if len(text) <= LONGEST else text[: LONGEST - 3] + " .."


def object_of(text: bytes) -> dict[str, Any]:
    """The JSON object of a job. Here its members may be anything."""
    try:
        job = json.loads(text)
    except ValueError:
        raise ValueError("the job is no JSON text: the fault is of another job") from None
    if not isinstance(job, dict):
        raise ValueError("the job is no JSON object: the fault is of another job")
    return job


def items_of(job: Mapping[str, Any], key: str) -> list[Any]:
    items = job.get(key, [])
    if not isinstance(items, list):
        raise ValueError(f"the key {key} of the job has no list: the fault is of another job")
    return items


def item_of(job: Mapping[str, Any], key: str, number: int) -> Any:
    """An item of a list of the job, by its number from 1."""
    items = items_of(job, key)
    if not 0 < number <= len(items):
        raise ValueError(f"the job has no item {number} in {key}: the fault is of another job")
    return items[number - 1]


def test_of(job: Mapping[str, Any], number: int) -> list[Any]:
    """A test of the job that is a list."""
    test = item_of(job, "suite", number)
    if not isinstance(test, list):
        raise ValueError(f"test {number} of the job is no list: the fault is of another job")
    return test


def json_notes(text: bytes) -> list[str]:
    """The place where a text stops being JSON."""
    try:
        job = json.loads(text.decode("utf-8"))
    except UnicodeDecodeError as fault:
        return [f"Byte {fault.start + 1} is not one of a text in UTF-8."]
    except json.JSONDecodeError as fault:
        line = fault.doc.split("\n")[fault.lineno - 1]
        at = max(fault.colno - 40, 0)
        shown = "".join(c if c.isprintable() else "?" for c in line[at : at + 80])
        where = f"Line {fault.lineno}, column {fault.colno} of the job: {fault.msg}."
        return [where, f"  {shown}", f"  {' ' * (fault.colno - 1 - at)}^"]
    except (RecursionError, ValueError):
        return ["Lists nest too deep, or a number is too long."]
    return [] if isinstance(job, dict) else [f"At the top stands {short(job)}."]


def key_notes(job: Mapping[str, Any], key: str) -> list[str]:
    if key not in ("source", "suite", "equivalent"):
        return [f"The key {short(key)} is unknown."]
    if key not in job:
        return [f"There is no key {key}."]
    return [f"The value of {key} is {short(job[key])}."]


def value_notes(test: object, number: int) -> list[str]:
    """The first value of a test that is no value of a dummy argument."""
    if not isinstance(test, list):
        return [f"Test {number} is {short(test)}."]
    wrong = [(place, value) for place, value in enumerate(test, 1) if not is_value(value)]
    notes = [f"Test {number} is {short(test)}."]
    return notes + [f"Value {place} is {short(value)}." for place, value in wrong[:1]]


def dummies_of(source: str) -> list[tuple[str, Dummy]]:
    """The names of the dummy arguments, and of each its kind and its number of elements."""
    cards = cards_of(source)
    _, names = read_head(cards[0].text if cards else "")
    return list(zip(names, read_unit(source)[1]))


def wanted(name: str, kind: str, elements: int | None) -> str:
    size = "" if elements is None else f", an array of {plural(elements, 'element')}"
    return f"{name} ({kind.upper()}{size})"


def fits(value: object, kind: str, elements: int | None) -> bool:
    """Whether a value is one of a dummy argument."""
    if elements is None:
        return isinstance(value, bool) == (kind == "logical") and not isinstance(value, list)
    return isinstance(value, list) and len(value) == elements and all(fits(item, kind, None) for item in value)


def shape_notes(job: Mapping[str, Any], test: list[Any], number: int | None = None) -> list[str]:
    """How a test and the dummy arguments differ."""
    dummies = dummies_of(str(job.get("source")))
    notes = [f"{f'Test {number}' if number else 'The test'} is {short(test)}."]
    kinds = ", ".join(wanted(name, *dummy) for name, dummy in dummies) or "none"
    notes.append(f"It has {plural(len(test), 'value')}; the dummy arguments are {len(dummies)}: {kinds}.")
    if len(test) == len(dummies):
        wrong = [place for place, (value, (_, dummy)) in enumerate(zip(test, dummies)) if not fits(value, *dummy)]
        for place in wrong[:1]:
            name, dummy = dummies[place]
            notes.append(f"Value {place + 1} is {short(test[place])}, for {wanted(name, *dummy)}.")
    return notes


def outcome_notes(program: str | None, job: Mapping[str, Any], number: int, words: Sequence[str]) -> list[str]:
    """The values of a test on which the program neither returns nor stops, and how its run ends, where that is
    asked."""
    test, source = item_of(job, "suite", number), str(job.get("source"))
    names = [name for name, _ in dummies_of(source)]
    values = test if isinstance(test, list) and len(test) == len(names) else []
    named = ", ".join(f"{name}={short(value)}" for name, value in zip(names, values))
    notes = [f"Test {number} is {short(test)}{': ' if named else ''}{named}."]
    limit = words[words.index("--steps") + 1] if "--steps" in words[:-1] else ""
    return notes + (end_notes(program, source, test, int(limit or DEFAULT)) if program else [])


def entry_notes(program: str | None, text: bytes, job: Mapping[str, Any], number: int) -> list[str]:
    """What is wrong with a declared entry."""
    entry = item_of(job, "equivalent", number)
    notes = [f"Entry {number} is {short(entry)}."]
    name = re.fullmatch(r"([A-Z]{3}) (\d+)", entry) if isinstance(entry, str) else None
    earlier = job["equivalent"].index(entry) + 1
    if earlier < number:
        return notes + [f"Entry {earlier} is the same."]
    if name and name[1] not in NAMES:
        return notes + [f"There is no operator {name[1]}."]
    if name and program:
        try:
            total = answer(program, ["list", "--ops", name[1]], text).split("\n")[0]
        except Fault:
            return notes
        notes.append(f"{name[1]} has {plural(int(total.split(' ')[1]), 'mutant')} of this program.")
    return notes


def notes_on(code: str, kind: str, detail: str, text: bytes, program: str | None, words: list[str]) -> list[str]:
    """The notes on the job for this fault. `text` is the bytes of the job; the program may be None."""
    if code == "J2":
        return json_notes(text)
    if code == "J7":
        return [f"The job has {len(text):,} bytes."]
    if kind not in ("key", "test", "value", "entry", "operator", "mutant") and code not in ("J6", "N2"):
        return []
    job = object_of(text)
    if code == "J6":
        return [f"There are {len(items_of(job, 'suite'))}."]
    if kind == "key":
        return key_notes(job, detail)
    if kind == "operator":
        return [f"{detail} is {NAMES[detail]}."] if detail in NAMES else []
    if code == "J8":
        return [f"The suite has {plural(len(items_of(job, 'suite')), 'test')}."]
    if kind == "entry":
        return entry_notes(program, text, job, int(detail))
    return notes_by_number(code, detail, job, program, words)


def notes_by_number(code: str, detail: str, job: Mapping[str, Any], program: str | None, words: list[str]) -> list[str]:
    """The notes on a test or a value of a test, by its number."""
    if code == "J4":
        return value_notes(item_of(job, "suite", int(detail)), int(detail))
    if code == "B3":
        return shape_notes(job, test_of(job, int(detail)), int(detail))
    if code == "B4":
        return outcome_notes(program, job, int(detail), words)
    if code in ("N2", "N3") and "--test" in words[:-1]:
        number = int(words[words.index("--test") + 1])
        return shape_notes(job, test_of(job, number), number)
    return []
