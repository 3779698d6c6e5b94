"""Calls of the programs mothra and equivalents."""

import subprocess
from collections.abc import Callable, Iterator, Sequence
from contextlib import contextmanager
from pathlib import Path
from typing import TypeVar

from mutants.program.programs import MOTHRA
from mutants.statuses import FAULT, SUCCESS, WORDS

Text = TypeVar("Text", str, bytes)
Read = TypeVar("Read")


class Fault(ValueError):
    """What a program wrote instead of an answer: its line, and its exit status. Only mothra has commands."""

    def __init__(self, command: str, line: str, status: int = FAULT, program: str = MOTHRA.name) -> None:
        super().__init__(f"{program} {command}: {line}" if command else f"{program}: {line}")
        self.line, self.status = line, status if status == WORDS else FAULT


class OutOfTime(Exception):
    """A call was ended, since it took longer than it may."""


def call(program: str, words: Sequence[str], job: bytes, seconds: float | None = None) -> tuple[str, int]:
    """What the program writes for these words and the bytes of a job, and its exit status.
    A call that takes longer than `seconds` seconds is ended."""
    try:
        ended = subprocess.run([program, *words], input=job, capture_output=True, timeout=seconds)
    except subprocess.TimeoutExpired:
        raise OutOfTime from None
    except OSError as fault:
        raise ValueError(f"{program} cannot be run: {fault.strerror}") from None
    return ended.stdout.decode("utf-8", "replace"), ended.returncode


def answer(program: str, words: Sequence[str], job: bytes, seconds: float | None = None) -> str:
    """The text that the program answers; a fault, refused words and a failure are a Fault with one line."""
    text, status = call(program, words, job, seconds)
    if status == SUCCESS:
        return text
    raise Fault(words[0], failure_of(text, status), status)


def plain_answer(name: str, program: str, words: Sequence[str], job: bytes, seconds: float | None = None) -> str:
    """The text that a program without commands answers; a fault, refused words and a failure are a Fault with one
    line."""
    text, status = call(program, words, job, seconds)
    if status == SUCCESS:
        return text
    raise Fault("", failure_of(text, status), status, name)


def failure_of(text: str, status: int) -> str:
    """One line that says what was written with a status other than 0."""
    lines = [line for line in text.splitlines() if line.strip()]
    if lines:
        return lines[0].strip()
    if status == FAULT:
        return "no memory, or a failed read or write: it wrote nothing"
    return f"status {status}, and nothing was written"


def text_of(path: str | Path) -> str:
    """A text that was stored, with ends of lines as they are."""
    return Path(path).read_bytes().decode("utf-8", "replace")


@contextmanager
def naming(path: Path) -> Iterator[None]:
    """Inside this context an error about a file names the file; a fault that a program wrote stays as it is."""
    try:
        yield
    except Fault:
        raise
    except (OSError, ValueError, RecursionError) as fault:
        raise ValueError(f"{path}: {getattr(fault, 'strerror', None) or fault}") from None


def read_as(name: str | Path, read: Callable[[Text], Read], text: Text) -> Read:
    """What `read` makes of a text; an error says where the text is from."""
    try:
        return read(text)
    except ValueError as fault:
        raise ValueError(f"{name}: {fault}") from None
