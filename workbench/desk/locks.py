"""The lock of a town: who writes its scripts or makes it anew holds a file beside them.

The system gives the lock back where its holder ends, however that comes about.
"""
from __future__ import annotations

import fcntl
import time
from collections.abc import Iterator
from contextlib import contextmanager
from pathlib import Path

from desk.errors import DeskError
from desk.files import reason

LOCK = ".desk.lock"
"""The lock file of a town."""

WAIT = 30.0
"""How many seconds another writer is waited for."""


@contextmanager
def locked(town: Path, wait: float = WAIT) -> Iterator[None]:
    """Holds the lock of a town. A DeskError where another one holds it for too long, or where it cannot be made."""
    path = town / LOCK
    try:
        file = open(path, "ab")
    except OSError as error:
        raise DeskError(f"{path} cannot be made: {reason(error)}") from error
    with file:
        until = time.monotonic() + wait
        while not is_taken(file.fileno()):
            if time.monotonic() >= until:
                raise DeskError(f"another `./desk` is writing, and holds {path}")
            time.sleep(0.02)
        yield


def is_taken(file: int) -> bool:
    """Whether the lock of a file or a folder that is open could be taken."""
    try:
        fcntl.flock(file, fcntl.LOCK_EX | fcntl.LOCK_NB)
    except OSError:
        return False
    return True
