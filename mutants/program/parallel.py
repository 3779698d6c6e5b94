"""Calls of the program by GNU parallel on several machines.

A call is two lines of the standard input of one `parallel --pipe`: its words, and its job. So no file has to be brought
to another machine, and none is left there. The answer to a call is written as a whole after the call has ended, between
a line with its place and a line with its exit status.
"""

import shlex
import subprocess
import tempfile
import threading
from collections.abc import Callable, Iterable, Iterator, Sequence
from typing import IO

from mutants.program.calling import failure_of
from mutants.program.many import Call
from mutants.program.unproved import MARK
from mutants.statuses import SUCCESS

BEGIN, END = "JOB ", "STATUS "
MISSING = "GNU parallel is not found: --sshlogin spreads the jobs by it (Debian's package parallel)"
# More bytes than a job may have, so that one job is one block.
BLOCK = "2M"
# What gets the place, the text and the status of each call as it ends.
Take = Callable[[int, str, int], None]


def find_parallel() -> None:
    """Raises ValueError where GNU parallel is not there. Another program may have its name."""
    try:
        version = subprocess.run(["parallel", "--version"], capture_output=True, text=True, errors="replace")
    except OSError:
        raise ValueError(MISSING) from None
    if not version.stdout.startswith("GNU parallel"):
        raise ValueError("the program parallel is not GNU parallel")


def on_one_line(job: bytes) -> bytes:
    """A job on one line. JSON has no ends of lines in its texts, and elsewhere they mean nothing."""
    return job.replace(b"\r", b" ").replace(b"\n", b" ") + b"\n"


def command_of(program: str) -> str:
    """The command for each call, for any shell; {#} is the place of the call. The words have no character that means
    something to a shell."""
    inner = f"echo {BEGIN}{{#}}; read -r words; {shlex.quote(program)} $words; status=$?; echo; echo {END}$status"
    return f"sh -c {shlex.quote(inner)}"


def parallel_words(program: str, jobs: int | None, logins: Iterable[str]) -> list[str]:
    words = ["parallel", "--pipe", "-N2", "--block", BLOCK]
    words += ["--jobs", str(jobs)] if jobs else []
    for login in logins:
        words += ["--sshlogin", login]
    return [*words, command_of(program)]


def lines_of(calls: Iterable[Call]) -> Iterable[bytes]:
    for words, job in calls:
        yield " ".join(words).encode() + b"\n"
        yield on_one_line(job)


def answers_in(lines: Iterable[str]) -> Iterator[tuple[int, str, int]]:
    """The place, the text and the status of each call, as they come."""
    place: int | None = None
    kept: list[str] = []
    for line in lines:
        if line.startswith(BEGIN):
            place, kept = int(line.removeprefix(BEGIN)) - 1, []
        elif line.startswith(END) and place is not None:
            # The end of line before the status was not written by the program.
            text = "".join(kept)
            yield place, text.removesuffix("\n"), int(line.removeprefix(END))
            place = None
        else:
            kept.append(line)


def text_of_answer(text: str, status: int) -> str:
    """What is kept of a job: the report, or the line that says why there is none."""
    return text if status == SUCCESS and text.startswith("REPORT ") else failure_of(text, status) + "\n"


def feed_lines(pipe: IO[bytes], lines: Iterable[bytes]) -> None:
    """Writes the lines to parallel. If it has ended before that, no more are needed."""
    try:
        with pipe:
            for line in lines:
                pipe.write(line)
    except BrokenPipeError:
        pass


def stop(running: "subprocess.Popen[bytes]") -> None:
    """Ends parallel and its jobs, if they still run. If it were asked once, it would wait for the jobs."""
    for _ in range(2):
        running.terminate()
    running.wait()


def last_line(errors: IO[bytes]) -> str:
    """The last line in which parallel or its jobs report a failure."""
    errors.seek(0)
    lines = errors.read().decode("utf-8", "replace").splitlines()
    # An unproved build says at each call that it is one, which is no failure.
    messages = [line.strip() for line in lines if line.strip() and not line.startswith(MARK)]
    return messages[-1] if messages else ""


def spread(program: str, calls: Sequence[Call], jobs: int | None, logins: Iterable[str], take: Take) -> str:
    """Makes these calls on the machines. `take` gets the place, the text and the status of each as it ends. The result
    is the last line of the errors."""
    words, pipe = parallel_words(program, jobs, logins), subprocess.PIPE
    with tempfile.TemporaryFile() as errors:
        with subprocess.Popen(words, stdin=pipe, stdout=pipe, stderr=errors) as running:
            assert running.stdin and running.stdout
            feeder = threading.Thread(target=feed_lines, args=(running.stdin, lines_of(calls)), daemon=True)
            feeder.start()
            try:
                for answer in answers_in(line.decode("utf-8", "replace") for line in running.stdout):
                    take(*answer)
            finally:
                stop(running)
                feeder.join()
        return last_line(errors)
