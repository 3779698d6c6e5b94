"""How a command or a tool ends: its exit status, and one line where something is wrong."""

import io
import os
import signal
import sys
import threading
from collections.abc import Callable, Iterator
from contextlib import contextmanager
from typing import NoReturn

from mutants.program.calling import Fault
from mutants.program.finding import NoProgram
from mutants.words import visible
from mutants.statuses import BY_SIGNAL, FAULT, INTERRUPTED, SUCCESS

SIGNALS = (signal.SIGTERM, signal.SIGHUP)


def one_line(fault: BaseException) -> str:
    """What a fault says, in one line."""
    if isinstance(fault, OSError) and fault.strerror:
        return f"{fault.filename}: {fault.strerror}" if fault.filename else fault.strerror
    return " ".join(str(fault).split()) or type(fault).__name__


def takes_any_text() -> None:
    """A character that the terminal does not take is shown as a question mark."""
    for stream in (sys.stdout, sys.stderr):
        if isinstance(stream, io.TextIOWrapper):
            stream.reconfigure(errors="replace")


def status_of(main: Callable[[], int]) -> int:
    """The exit status of `main`, after all of its output is written.
    Help and refused words end by an exit of their own."""
    try:
        status = main()
    except SystemExit as end:
        status = end.code if isinstance(end.code, int) else SUCCESS if end.code is None else FAULT
    sys.stdout.flush()
    return status


def leave_closed_pipes() -> None:
    """Throws away what is still to be written to a pipe that nobody reads:
    else Python would write it at its end, and report that this failed."""
    for stream in (sys.stdout, sys.stderr):
        try:
            stream.flush()
        except BrokenPipeError:
            os.dup2(os.open(os.devnull, os.O_WRONLY), stream.fileno())


def end_by_signal(number: int, _: object) -> NoReturn:
    raise SystemExit(BY_SIGNAL + number)


@contextmanager
def ended_by_signals() -> Iterator[None]:
    """Inside this context, a signal that would end this process at once ends it with all that it has begun."""
    kept: dict[int, object] = {}
    if threading.current_thread() is threading.main_thread():
        # A signal that is ignored, as under nohup, stays ignored.
        kept = {each: signal.getsignal(each) for each in SIGNALS if signal.getsignal(each) == signal.SIG_DFL}
    for each in kept:
        signal.signal(each, end_by_signal)
    try:
        yield
    finally:
        for each in kept:
            signal.signal(each, signal.SIG_DFL)


def run_tool(name: str, main: Callable[[], int]) -> int:
    """Runs `main`, and gives its exit status. A fault is a line on standard error;
    Ctrl-C, SIGTERM, SIGHUP and a closed pipe end it without more."""
    takes_any_text()
    try:
        with ended_by_signals():
            return reported_status(name, main)
    except BrokenPipeError:
        leave_closed_pipes()
        return FAULT


def reported_status(name: str, main: Callable[[], int]) -> int:
    """The exit status of `main`, with a line on standard error for what ends it early."""
    try:
        return status_of(main)
    except KeyboardInterrupt:
        sys.stderr.write("\n")
        return INTERRUPTED
    except BrokenPipeError:
        raise
    except NoProgram as fault:
        sys.stderr.write(f"{name}: {visible(fault)}\n")
        return FAULT
    except (OSError, ValueError, RecursionError, MemoryError) as fault:
        sys.stderr.write(f"{name}: {visible(one_line(fault))}\n")
        return fault.status if isinstance(fault, Fault) else FAULT
