"""Calls of the program side by side, several at once. A fault of one ends all."""

import os
import queue
import signal
import subprocess
import threading
from collections.abc import Callable, Sequence
from concurrent.futures import Future, ThreadPoolExecutor, wait
from typing import NamedTuple

from mutants.program.calling import Fault, failure_of
from mutants.statuses import SUCCESS

# The words of a call, and the job that it gets.
Call = tuple[Sequence[str], bytes]
Keep = Callable[[int, str], None]
# What is raised instead of a fault of the call at a place.
Refuse = Callable[[int, Fault], Exception]
# What gives the text of a call, from the calls that are running, its words and its job.
Ask = Callable[["Calls", Sequence[str], bytes], str]
# How often, in seconds, progress may be shown.
TICK = 0.5


def processors() -> int:
    """How many processors this process may use."""
    return len(os.sched_getaffinity(0)) if hasattr(os, "sched_getaffinity") else os.cpu_count() or 1


class Calls:
    """The calls that are running. Once they are stopped, no other one begins."""

    def __init__(self, program: str) -> None:
        self.program, self.lock, self.is_over = program, threading.Lock(), False
        self.running: set["subprocess.Popen[bytes]"] = set()

    def begin(self, words: Sequence[str]) -> "subprocess.Popen[bytes]":
        pipe = subprocess.PIPE
        with self.lock:
            if self.is_over:
                raise ValueError("it was stopped")
            try:
                begun = subprocess.Popen([self.program, *words], stdin=pipe, stdout=pipe, stderr=pipe)
            except OSError as fault:
                raise ValueError(f"{self.program} cannot be run: {fault.strerror}") from None
            self.running.add(begun)
            return begun

    def answer(self, words: Sequence[str], job: bytes) -> str:
        """The text that the program answers; a fault, refused words and a failure are a Fault with one line."""
        begun = self.begin(words)
        try:
            out, _ = begun.communicate(job)
        finally:
            with self.lock:
                self.running.discard(begun)
        text, status = out.decode("utf-8", "replace"), begun.returncode
        if status == -signal.SIGINT:
            raise KeyboardInterrupt
        if status != SUCCESS:
            raise Fault(words[0], failure_of(text, status), status)
        return text

    def stop(self) -> None:
        with self.lock:
            self.is_over = True
            for begun in self.running:
                begun.kill()


def first_failed(calls: "Sequence[Future[str]]", place: int) -> int:
    """The place of the first call that fails, where the one at this place did: earlier calls may be running still."""
    earlier = [each for each in calls[:place] if not each.cancel()]
    wait(earlier)
    failed = [at for at, each in enumerate(calls[:place]) if not each.cancelled() and each.exception()]
    return min([*failed, place])


def keep_each(calls: "Sequence[Future[str]]", handling: "Handling") -> None:
    """Keeps the text of each call as it ends."""
    ended: queue.SimpleQueue[int] = queue.SimpleQueue()
    for place, each in enumerate(calls):
        each.add_done_callback(lambda _, place=place: ended.put(place))
    left = len(calls)
    while left:
        handling.tick()
        try:
            place = ended.get(timeout=TICK)
        except queue.Empty:
            continue
        if calls[place].exception():
            place = first_failed(calls, place)
            fault = calls[place].exception()
            raise handling.refuse(place, fault) if isinstance(fault, Fault) else fault or ValueError("it was stopped")
        handling.keep(place, calls[place].result())
        left -= 1


class Handling(NamedTuple):
    """How calls are handled: `keep` gets the place and the text of each as it ends, `tick` is called now and then,
    `refuse` gets the place of one that fails; and how a call is made."""

    keep: Keep
    tick: Callable[[], None] = lambda: None
    refuse: Refuse = lambda place, fault: fault
    ask: Ask = lambda calls, words, job: calls.answer(words, job)


def ask_many(program: str, calls: Sequence[Call], at_once: int, handling: Handling) -> None:
    """Makes these calls. The first fault ends all of them; so does Ctrl-C."""
    running = Calls(program)
    with ThreadPoolExecutor(at_once) as pool:
        try:
            # A signal may come as soon as the first call runs.
            keep_each([pool.submit(handling.ask, running, *call) for call in calls], handling)
        finally:
            running.stop()
            pool.shutdown(cancel_futures=True)
