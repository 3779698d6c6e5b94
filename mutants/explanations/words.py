"""What is wrong with words that mothra refuses: which option it is, and which values it takes."""

import difflib
from collections.abc import Mapping, Sequence

from mutants.operators import NAMES

# Of each command its options, with the least and the greatest number, or None for a list of operators.
Range = tuple[int, int]
STEPS, EVERY = (1, 1_000_000), (1, 1_048_575)
OPTIONS: dict[str, dict[str, Range | None]] = {
    "print": {},
    "exec": {"--test": (1, 256), "--steps": STEPS},
    "list": {"--ops": None, "--every": EVERY},
    "run": {"--ops": None, "--every": EVERY, "--steps": STEPS, "--workers": (1, 32)},
}


def ops_says(value: str) -> str | None:
    """Why a value of --ops is no list of operators; None where it is one."""
    for part in value.split(","):
        if part not in NAMES:
            near = difflib.get_close_matches(part.strip().upper(), NAMES, 1)
            hint = f" Is {near[0]} meant?" if near else ""
            return f"--ops has {part!r}, which is no code of an operator.{hint} The codes are {', '.join(NAMES)}."
    return None


def number_says(option: str, value: str, least: int, greatest: int) -> str | None:
    digits = value.removeprefix("+")
    if not (digits.isascii() and digits.isdecimal()):
        return f"{option} has {value!r}, which is no number; it is one from {least} to {greatest}."
    if not least <= int(digits[-12:]) <= greatest or len(digits.lstrip("0")) > 8:
        return f"{option} has {value}; it is a number from {least} to {greatest}."
    return None


def option_says(option: str, value: str | None, known: Mapping[str, Range | None]) -> str | None:
    """What is wrong with one option and its value, or None."""
    if option not in known:
        near = difflib.get_close_matches(option, known, 1)
        options = f"the options here are {', '.join(known)}" if known else "there is none here"
        return f"{option!r} is no option of this command: {options}.{f' Is {near[0]} meant?' if near else ''}"
    if value is None:
        return f"{option} has no value."
    within = known[option]
    return ops_says(value) if within is None else number_says(option, value, *within)


def pairs_of(words: Sequence[str]) -> list[tuple[str, str | None]]:
    """The options with their values, or None where an option has none. A value may stand after an equals sign."""
    pairs: list[tuple[str, str | None]] = []
    at = 0
    while at < len(words):
        option, is_joined, value = words[at].partition("=")
        at += 1
        if is_joined:
            pairs.append((option, value))
        else:
            pairs.append((option, words[at] if at < len(words) else None))
            at += 1
    return pairs


def words_say(words: Sequence[str]) -> str | None:
    """The first thing that is wrong with words, in a sentence; None where nothing is found."""
    if not words or words[0] not in OPTIONS:
        first = f"{words[0]!r} is no command" if words else "There is no command"
        return f"{first}: the commands are {', '.join(OPTIONS)}."
    known, pairs = OPTIONS[words[0]], pairs_of(words[1:])
    for place, (option, value) in enumerate(pairs):
        text = option_says(option, value, known)
        if text:
            return text
        if option in dict(pairs[:place]):
            return f"{option} stands twice."
    is_missing = words[0] == "exec" and "--test" not in dict(pairs)
    return "--test is missing: exec runs one test of the suite." if is_missing else None
