"""The time that a search may take, or the number of its rounds."""

import time


class Clock:
    """The time that is left. Without a number of seconds there is always enough, and nothing depends on time."""

    def __init__(self, seconds: float | None) -> None:
        self.seconds, self.begun = seconds, time.monotonic()

    def passed(self) -> float:
        return time.monotonic() - self.begun

    def left(self, share: float = 1.0) -> float | None:
        """How many seconds are left of this share of the time; None where there is no limit."""
        return None if self.seconds is None else max(0.0, share * self.seconds - self.passed())

    def has(self, seconds: float, share: float = 1.0) -> bool:
        """Whether so many seconds are left of this share of the time."""
        left = self.left(share)
        return left is None or left > seconds
