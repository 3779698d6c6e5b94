"""The progress of a command, on standard error."""

import math
import sys
import threading
import time
from collections.abc import Iterator
from contextlib import contextmanager


class Progress:
    """One line that is written again and again on a terminal; elsewhere a line each time."""

    def __init__(self, name: str) -> None:
        self.name, self.is_terminal, self.width = name, sys.stderr.isatty(), 0

    def tell(self, text: str) -> None:
        line = f"{self.name}: {text}"
        if self.is_terminal:
            sys.stderr.write("\r" + line.ljust(self.width))
            self.width = len(line)
        else:
            sys.stderr.write(line + "\n")
        sys.stderr.flush()

    def end(self) -> None:
        if self.width:
            sys.stderr.write("\n")
            self.width = 0


# How many seconds pass before progress is shown, except on a terminal; and how often it is shown then.
QUIET, OFTEN = 1.0, 2.0


@contextmanager
def telling(progress: Progress, text: str) -> Iterator[None]:
    """Inside this context the text is shown: on a terminal at once, elsewhere if it takes long."""
    timer = threading.Timer(0 if progress.is_terminal else QUIET, progress.tell, [text])
    timer.daemon = True
    try:
        if text:
            timer.start()
        yield
    finally:
        timer.cancel()
        progress.end()


def seconds_text(seconds: float) -> str:
    """A guessed time, in words."""
    whole = round(seconds)
    if whole < 100:
        return f"{max(whole, 1)} s"
    minutes = round(seconds / 60)
    return f"{minutes} minutes" if minutes < 100 else f"{seconds / 3600:.1f} hours"


class Paced:
    """Shows progress: on a terminal at once, elsewhere now and then if it takes long."""

    def __init__(self, name: str) -> None:
        self.progress, self.begun = Progress(name), time.monotonic()
        self.next = self.begun + (0 if self.progress.is_terminal else QUIET)

    def tell(self, text: str) -> None:
        now = time.monotonic()
        if now >= self.next:
            self.next = now + (0 if self.progress.is_terminal else OFTEN)
            self.progress.tell(text)


class Estimate(Paced):
    """Shows how much of the work is done, and how long the rest may take."""

    def __init__(self, name: str, what: str, whole: int) -> None:
        super().__init__(name)
        self.what, self.whole, self.done, self.shown = what, whole, 0, -1

    def add(self, part: int) -> None:
        self.done += part

    def text(self, now: float) -> str:
        share = self.done / self.whole if self.whole else 1.0
        line = f"{self.what}: {math.floor(100 * share)} % done"
        if self.done and share < 1:
            line += f", about {seconds_text((now - self.begun) * (1 - share) / share)} left"
        return line

    def tick(self) -> None:
        """Shows it, if it is time to."""
        now = time.monotonic()
        # Lines that stay, as in the log of a build, are written only if something was done since the last one.
        if now >= self.next and (self.progress.is_terminal or self.done != self.shown):
            self.shown = self.done
            self.tell(self.text(now))
