"""Calls of the program mothra that may go wrong, and how each ended."""

import re
import subprocess
import tempfile
import threading
from collections.abc import Sequence
from typing import NamedTuple

from mutants.statuses import FAULT, SUCCESS, WORDS

FAULT_LINE = re.compile(rb"FAULT ([JFSCNOB][0-9]+)( [^\n]*)?\n")
MOST_SECONDS = 60
# Held while a program is started or written: a program that another thread has open for writing can not be started.
BEGINNING = threading.Lock()


class Ended(NamedTuple):
    """How a call ended: its text, and its exit status (that of a signal below 0)."""

    text: bytes
    status: int


def called(words: Sequence[str], given: bytes) -> Ended:
    """Runs a command on the bytes given, and reads back what it wrote; it is ended where it takes too long."""
    with tempfile.TemporaryFile() as source, tempfile.TemporaryFile() as target:
        source.write(given)
        source.seek(0)
        with BEGINNING:
            child = subprocess.Popen(words, stdin=source, stdout=target, stderr=subprocess.DEVNULL)
        limit = threading.Timer(MOST_SECONDS, child.kill)
        limit.start()
        status = child.wait()
        limit.cancel()
        target.seek(0)
        return Ended(target.read(), status)


def answer_of(ended: Ended) -> str:
    """The answer of a call: `report`, a fault's code, `nothing`, `words`, or BROKEN and the answer that no call may
    give."""
    fault = FAULT_LINE.fullmatch(ended.text)
    if ended.status == SUCCESS and ended.text.endswith(b"\n"):
        return "report"
    if ended.status == FAULT and fault:
        return fault[1].decode()
    if ended.status == FAULT and not ended.text:
        return "nothing"
    if ended.status == WORDS and ended.text:
        return "words"
    return f"BROKEN: status {ended.status}, {len(ended.text)} bytes"
