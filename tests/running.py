"""What the tests share: where the command and the tools lie, and how one is run."""

import atexit
import io
import os
import runpy
import signal
import subprocess
import sys
import tempfile
import time
import traceback
import unittest
from collections.abc import Callable, Iterable
from contextlib import ExitStack
from pathlib import Path
from typing import IO, ContextManager, NoReturn, TypeVar
from unittest import mock

TESTS = Path(__file__).resolve().parent
ROOT = TESTS.parent
TOOLS, MUTANTS = ROOT / "tools", ROOT / "bin" / "mutants"
EXAMPLES = ["triangle", "triangle-more", "sort", "euclid", "closure"]

# What a test starts finds the Python that runs the test first: a front of it would take longer than most tests.
os.environ["PATH"] = f"{Path(sys.executable).parent}:{os.environ['PATH']}"
# What is kept of a check is kept for these tests alone.
CACHES = tempfile.TemporaryDirectory()
os.environ["XDG_CACHE_HOME"] = CACHES.name

# The modules of the package are imported where they lie, and leave no files there.
sys.dont_write_bytecode = True
sys.path[:0] = [str(ROOT), str(TOOLS)]

from mutants.subcommands.registry import SUBCOMMANDS  # noqa: E402

# Of what was run: its exit status, its output and its errors.
Ended = tuple[int, str, str]
NAMES = [command.name for command in SUBCOMMANDS]

LEAST = """\
C     K BECOMES THE LESSER OF I AND J.
      SUBROUTINE LEAST(I,J,K)
      K=I
      IF (J.LT.I) K=J
      END
"""


def words_of(tool: str, words: Iterable[object]) -> list[str]:
    """The whole call of a subcommand of mutants, or of a tool."""
    front = [str(MUTANTS), tool] if tool in NAMES else [str(TOOLS / tool)] if tool else [str(MUTANTS)]
    return [*front, *map(str, words)]


def run(tool: str, *words: object, given: bytes = b"", path: Path | None = None) -> Ended:
    """What comes of a tool: its exit status, its output and its errors. `path` is a folder before those of the path.

    It is run in this process, whose standard streams, words and path it has for so long.
    """
    files = [io.BytesIO(text) for text in (given, b"", b"")]
    streams = [io.TextIOWrapper(file, encoding="utf-8") for file in files]
    with ExitStack() as patches:
        for name, stream in zip(("stdin", "stdout", "stderr"), streams):
            patches.enter_context(mock.patch.object(sys, name, stream))
        patches.enter_context(mock.patch.object(sys, "argv", words_of(tool, words)))
        patches.enter_context(mock.patch.object(sys, "path", [*sys.path]))
        if path:
            patches.enter_context(mock.patch.dict(os.environ, {"PATH": f"{path}:{os.environ['PATH']}"}))
        status = status_of(sys.argv[0])
        sys.stdout.flush()
        sys.stderr.flush()
    return status, files[1].getvalue().decode(), files[2].getvalue().decode()


def status_of(file: str) -> int:
    """The exit status of a file of Python that is run as a program."""
    try:
        runpy.run_path(file, run_name="__main__")
    except SystemExit as end:
        if isinstance(end.code, str):
            sys.stderr.write(end.code + "\n")
        return 1 if isinstance(end.code, str) else int(end.code or 0)
    return 0


class Copy:
    """A copy of this process that is a tool. It has read the modules of the tools already: so it begins at once."""

    def __init__(self, tool: str, words: Iterable[object], given: bytes = b"", path: Path | None = None) -> None:
        self.files = [tempfile.TemporaryFile() for _ in range(3)]
        self.files[0].write(given)
        self.files[0].seek(0)
        sys.stdout.flush()
        sys.stderr.flush()
        self.pid = os.fork()
        if self.pid == 0:
            become(tool, words, path, self.files)

    def ended(self) -> Ended:
        """What came of it, once it has ended."""
        _, status = os.waitpid(self.pid, 0)
        for file in self.files:
            file.seek(0)
        _, out, errors = (file.read().decode() for file in self.files)
        for file in self.files:
            file.close()
        return os.waitstatus_to_exitcode(status), out, errors


def run_apart(tool: str, *words: object, path: Path | None = None) -> Ended:
    """What comes of a tool that is run in a copy of this process: where it is about signals, or writes by others."""
    return Copy(tool, words, path=path).ended()


def become(tool: str, words: Iterable[object], path: Path | None, files: Iterable[IO[bytes]]) -> NoReturn:
    """Is the tool, and nothing more: with these words, standard files and path."""
    status = 99
    try:
        for number, file in enumerate(files):
            os.dup2(file.fileno(), number)
        sys.argv = words_of(tool, words)
        if path:
            os.environ["PATH"] = f"{path}:{os.environ['PATH']}"
        status = status_of(sys.argv[0])
    except BaseException:
        traceback.print_exc()
    finally:
        sys.stdout.flush()
        sys.stderr.flush()
        os._exit(status)


SKIPPED: list[str] = []
Case = TypeVar("Case", bound=type[unittest.TestCase])


def needs(is_there: object, what: str) -> Callable[[Case], Case]:
    """Tests that need something which may not be there: they are skipped, and the last line of all tests says so."""
    if is_there:
        return lambda case: case
    SKIPPED.append(what)
    skipped: Callable[[Case], Case] = unittest.skip(f"{what} is not installed")
    return skipped


@atexit.register
def tell_skipped() -> None:
    for what in SKIPPED:
        sys.stderr.write(f"Skipped: the tests that need {what}, which is not installed.\n")


def example(name: str, ending: str) -> Path:
    return ROOT / "examples" / (name + ending)


def has(case: unittest.TestCase, page: str, *texts: str) -> None:
    """Asserts that a page has these texts; it is too long to be shown where it has not."""
    for text in texts:
        case.assertTrue(text in page, f"not on the page: {text}")


def refuses(case: unittest.TestCase, ended: Ended, *told: str) -> None:
    """Asserts that a tool ended with one line of error that has these words, and wrote nothing."""
    status, out, errors = ended
    case.assertNotEqual(status, 0, errors)
    case.assertEqual(out, "")
    case.assertEqual(errors.count("\n"), 1, errors)
    for word in told:
        case.assertIn(word, errors)


class Folder(unittest.TestCase):
    """A test with a folder of its own."""

    def setUp(self) -> None:
        folder = tempfile.TemporaryDirectory()
        self.addCleanup(folder.cleanup)
        self.folder = Path(folder.name)

    def put(self, name: str, text: str | bytes) -> Path:
        path = self.folder / name
        path.parent.mkdir(parents=True, exist_ok=True)
        path.write_bytes(text if isinstance(text, bytes) else text.encode())
        return path

    def put_program(self, name: str, text: str) -> Path:
        path = self.put(name, text)
        path.chmod(0o755)
        return path

    def names(self) -> list[str]:
        return sorted(path.name for path in self.folder.iterdir())


def holds(case: unittest.TestCase, patches: ContextManager[object]) -> None:
    """Makes patches hold until a test has ended."""
    patches.__enter__()
    case.addCleanup(patches.__exit__, None, None, None)


def with_closed_pipe(tool: str, *words: object) -> str:
    """The errors of a tool whose output nobody reads."""
    null, pipe = subprocess.DEVNULL, subprocess.PIPE
    with subprocess.Popen(words_of(tool, words), stdin=null, stdout=pipe, stderr=pipe) as running:
        assert running.stdout and running.stderr
        running.stdout.close()
        return running.stderr.read().decode()


def waited_for(happens: Callable[[], object], seconds: float = 20.0) -> bool:
    """Whether something happens within so many seconds; it is waited for no longer than it takes."""
    until = time.monotonic() + seconds
    while not happens():
        if time.monotonic() > until:
            return False
        time.sleep(0.005)
    return True


def take_ctrl_c() -> None:
    # What a shell begins in the background ignores Ctrl-C, and so do its children: these tests may be such.
    signal.signal(signal.SIGINT, signal.SIG_DFL)


def interrupted(folder: str, tool: str, *words: object) -> tuple[int, str]:
    """The status and the errors of a tool that gets Ctrl-C when its program has made the file `begun` in the folder."""
    call, pipe = words_of(tool, words), subprocess.PIPE
    with subprocess.Popen(
        call, cwd=folder, stdout=pipe, stderr=pipe, start_new_session=True, preexec_fn=take_ctrl_c
    ) as running:
        assert running.stderr
        waited_for(Path(folder, "begun").exists)
        os.killpg(running.pid, signal.SIGINT)
        return running.wait(20), running.stderr.read().decode()
