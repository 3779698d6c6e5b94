"""What the program itself does on each test, and whether that is what is expected of it."""

import json
import re
from collections.abc import Mapping, Sequence
from typing import NamedTuple

from mutants.caches import keep_answer, kept_answer, path_of_answer
from mutants.checks.faults import said_of
from mutants.checks.running import Means, calls_at_once
from mutants.pages.suite import values_of
from mutants.program.calling import Fault
from mutants.program.many import Call, Handling, ask_many
from mutants.progress import Estimate
from mutants.texts.batches import batch_text
from mutants.texts.jobs import Job

# At most: the sources whose outcomes are kept, the tests of each, and the bytes of all.
KIND, MOST, MOST_TESTS, MOST_BYTES = "outcomes", 500, 10_000, 1 << 25
# The outcomes on which a test can be run at all: others are faults of the program itself.
ENDS = ("RETURNED", "STOPPED")
TRUTHS = {"TRUE": "T", ".TRUE.": "T", "FALSE": "F", ".FALSE.": "F"}


class Difference(NamedTuple):
    """A test on which the outcome of the program is another than the expected one."""

    test: int
    outcome: str
    expected: str


def test_fault(number: int, fault: Fault) -> ValueError:
    """Why a test can not be run, in one line; what is no fault of the test stays as it is."""
    if not fault.line.startswith(("FAULT N", "FAULT J4", "FAULT J7")):
        return fault
    return ValueError(f"test {number}: {said_of(fault.line)}")


def ask_outcomes(job: Job, places: Sequence[int], means: Means, name: str | None) -> list[str]:
    """The line of the outcome of the program itself on each of the tests at these places. The first test that can not
    be run is a fault. With the name of a command, its progress is shown."""
    words, plain = ["exec", "--test", "1", *means.step_words], Job(job.source, job.suite)
    calls: list[Call] = [(words, batch_text(plain, at, at + 1)) for at in places]
    outcomes = [""] * len(calls)
    estimate = Estimate(name or "", f"the program itself on {len(calls)} tests", len(calls))

    def keep(at: int, text: str) -> None:
        outcomes[at] = text.rstrip("\n")
        estimate.add(1)

    def refuse(at: int, fault: Fault) -> ValueError:
        return test_fault(places[at] + 1, fault)

    handling = Handling(keep, estimate.tick, refuse) if name else Handling(keep, refuse=refuse)
    try:
        ask_many(means.program, calls, calls_at_once(means), handling)
    finally:
        estimate.progress.end()
    return outcomes


def asked_outcomes(job: Job, means: Means, name: str | None) -> list[str]:
    """The line of each outcome. A call costs more than the runs of most mutants, so what was asked before is kept; a
    test on which the program does not end is refused."""
    path = path_of_answer(KIND, means.program, means.step_words, job.source.encode())
    known: dict[str, str] = {} if means.anew else json.loads(kept_answer(path) or "{}")
    keys = list(map(json.dumps, job.suite))
    new = {key: place for place, key in reversed([*enumerate(keys)]) if key not in known}
    places = sorted(new.values())
    known |= zip((keys[place] for place in places), ask_outcomes(job, places, means, name))
    for number, key in enumerate(keys, 1):
        if known[key].split(" ")[0] not in ENDS:
            ending = f"test {number}: the program itself ends as {known[key]} on {values_of(job.suite[number - 1])}"
            raise ValueError(f"{ending}; it has to return or stop on each test")
    if places:
        keep_answer(path, json.dumps(dict([*known.items()][-MOST_TESTS:])), MOST, MOST_BYTES)
    return [known[key] for key in keys]


def values_in(outcome: str) -> list[str]:
    """The values of an outcome, as its line has them."""
    return outcome.split(" ")[1:]


def scalar_text(word: str) -> str:
    """A number or a truth value as an outcome writes it; another text stays."""
    if re.fullmatch(r"[+-]?\d{1,10}", word):
        return str(int(word))
    return TRUTHS.get(word, word)


def array_text(inside: str) -> str:
    return "(" + ",".join(map(scalar_text, re.split(r"[\s,]+", inside.strip()))) + ")"


def words_in(text: str) -> list[str]:
    """The words of an expectation as an outcome has them: upper case, arrays in parentheses and without blanks."""
    plain = re.sub(r"\s*=\s*", "=", text.strip().upper().translate(str.maketrans("[]", "()")))
    plain = re.sub(r"\(([^()]*)\)", lambda array: f" {array_text(array[1])} ", plain).replace("= (", "=(")
    words = [word.rpartition("=") for word in plain.split()]
    return [name + sign + (word if word.startswith("(") else scalar_text(word)) for name, sign, word in words]


def is_word_met(word: str, outcome: str, names: Sequence[str]) -> bool:
    """Whether NAME=VALUE holds of an outcome."""
    name, _, value = word.partition("=")
    if name not in names:
        raise ValueError(f"{name} is no dummy argument: these are {', '.join(names) or 'none'}")
    return value in ("*", values_in(outcome)[list(names).index(name)])


def is_met(expected: str, outcome: str, names: Sequence[str]) -> bool:
    """Whether an outcome is what is expected: NAME=VALUE for some arguments, or all values in order, * for any.

    RETURNED or STOPPED may stand in front; without one of them the program has to return. An empty text expects
    nothing.
    """
    words = words_in(expected)
    if not words:
        return True
    kind = words.pop(0) if words[0] in ENDS else ENDS[0]
    if outcome.split(" ")[0] != kind:
        return False
    if all("=" in word for word in words):
        return all([is_word_met(word, outcome, names) for word in words])
    if len(words) != len(names):
        refusal = f"{expected!r} has {len(words)} values, and the subroutine has {len(names)} dummy arguments"
        raise ValueError(refusal + ("" if "(" in expected else "; an array is one value, in parentheses: (1,2,3)"))
    return all(word in ("*", value) for word, value in zip(words, values_in(outcome)))


def differences(expected: Mapping[int, str], outcomes: Sequence[str], names: Sequence[str]) -> list[Difference]:
    """The tests, from 1, whose outcome is not what is expected of them."""
    others = []
    for number, text in sorted(expected.items()):
        try:
            met = is_met(text, outcomes[number - 1], names)
        except ValueError as fault:
            raise ValueError(f"what is expected of test {number}: {fault}") from None
        if not met:
            others.append(Difference(number, outcomes[number - 1], " ".join(text.split())))
    return others
