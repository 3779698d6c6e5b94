"""Files that are written whole or not at all."""

import fcntl
import os
import stat
import sys
import tempfile
from collections.abc import Callable, Iterator
from contextlib import contextmanager
from pathlib import Path

# A file that is read as a whole has at most this many bytes.
LARGEST = 1 << 26


def is_open_as(path: Path, handle: Callable[[], int]) -> bool:
    """Whether a path names what this handle has open."""
    try:
        return os.path.samestat(path.stat(), os.fstat(handle()))
    except (OSError, ValueError):
        return False


def bytes_of(path: Path) -> bytes:
    """The bytes of a file that is read as a whole."""
    with open(path, "rb") as file:
        data = file.read(LARGEST + 1)
    if len(data) > LARGEST:
        raise ValueError(f"the file has more than {LARGEST:,} bytes")
    return data


def takes_bytes(path: Path) -> bool:
    """Whether a path is a pipe or a device, which takes bytes as they come. Links to these count only in /dev."""
    is_other = path.exists() and not path.is_file() and not path.is_symlink()
    return is_other or path.absolute().is_relative_to("/dev")


def written(path: Path, data: bytes) -> None:
    """Writes a file under a name of its own and then renames it, so that it is there whole or not at all.

    It takes the mode of a file that was there before. A link is replaced and not followed, so nobody can have another
    file written.
    """
    if is_open_as(path, sys.stdout.fileno):
        sys.stdout.flush()
        sys.stdout.buffer.write(data)
    elif takes_bytes(path):
        path.write_bytes(data)
    else:
        replaced(path, data)


@contextmanager
def locked(path: Path) -> Iterator[None]:
    """Holds a lock beside a file that is read and then written, so that another call waits."""
    lock = path.with_name(f".{path.name}.lock")
    while True:
        handle = os.open(lock, os.O_CREAT | os.O_RDWR | os.O_NOFOLLOW, 0o666)
        fcntl.flock(handle, fcntl.LOCK_EX)
        # The call that held the lock before has removed its file.
        if is_open_as(lock, lambda: handle):
            break
        os.close(handle)
    try:
        yield
    finally:
        lock.unlink(missing_ok=True)
        os.close(handle)


def mode_for(path: Path) -> int:
    """The mode of a file whose place is taken, or that of a new one."""
    if path.is_file() and not path.is_symlink():
        return stat.S_IMODE(path.stat().st_mode)
    mask = os.umask(0)
    os.umask(mask)
    return 0o666 & ~mask


def replaced(path: Path, data: bytes) -> None:
    """Writes a file that is none yet, or takes the place of one."""
    handle, part = tempfile.mkstemp(dir=path.parent, prefix=".mutants-", suffix=".part")
    try:
        with os.fdopen(handle, "wb") as file:
            file.write(data)
        os.chmod(part, mode_for(path))
        os.replace(part, path)
    except BaseException:
        os.unlink(part)
        raise
