"""The journal, `journal.db`, as the program reads it from a copy: because opening a database may change files of its folder."""
from __future__ import annotations

import fcntl
import os
import shutil
import sqlite3
from contextlib import closing
from pathlib import Path

from desk.answers import tell
from desk.errors import DeskError
from desk.files import read_bytes, reason, refuse_no_file
from desk.hints.forms import JOURNAL
from desk.limits import MOST_BYTES
from desk.rooms import own_room

BESIDE = ("", "-wal", "-journal")
"""The files of a database, by what stands behind its name."""

LOCKED_FROM, LOCKED_BYTES = 0x40000000, 512
"""The bytes of a database that the programs which have it open lock."""

MEANINGS = {
    "not a database": "it is no database: move it away, and `keep` makes a new one",
    "no such column": "it is a database of something else, with another table: move it away",
    "malformed": "it is damaged: put a copy from before in its place"}
"""What words in an error of SQLite mean for a planner."""


def journal_text(path: Path) -> bytes:
    """All lines of the journal, each with a line end. A journal that cannot be read is a DeskError that says why."""
    try:
        why = fault_of(path)
        if why:
            raise DeskError(f"{path.name}: {why}")
        with own_room() as room:
            for ending in BESIDE:
                if Path(f"{path}{ending}").is_file():
                    shutil.copyfile(f"{path}{ending}", room / f"{JOURNAL}{ending}")
            try:
                tell("kept", path.parent, room)
            except DeskError as error:
                raise DeskError(f"{path.name}: {_meaning(room / JOURNAL)}") from error
            return read_bytes(room / "edits.csv")
    except OSError as error:
        raise DeskError(f"{path.name}: {reason(error)}") from error


def _meaning(path: Path) -> str:
    """Why the program cannot read a journal that no other program has open."""
    try:
        with closing(sqlite3.connect(path)) as database:
            database.execute("SELECT line FROM journal ORDER BY seq").fetchall()
    except sqlite3.Error as error:
        return next((meaning for words, meaning in MEANINGS.items() if words in str(error)), str(error))
    return "the program cannot read it: put a copy from before in its place"


def fault_of(path: Path) -> str | None:
    """Why a file is no journal that can be read, as far as it tells without being opened as a database."""
    if path.is_dir():
        return "it is a folder, and the journal would stand there: move it away"
    refuse_no_file(path)
    if path.stat().st_size > MOST_BYTES:
        return f"it has more than {MOST_BYTES:,} bytes, and a journal has no more"
    return "another program has it open: end that one, and try again" if is_locked(path) else None


def is_locked(path: Path) -> bool:
    """Whether another program has a database open."""
    if not os.access(path, os.W_OK):
        return False
    with open(path, "r+b") as file:
        try:
            fcntl.lockf(file, fcntl.LOCK_EX | fcntl.LOCK_NB, LOCKED_BYTES, LOCKED_FROM)
        except OSError:
            return True
        return False


def journal_hints(folder: Path) -> list[str]:
    """Why the journal of a folder could not be read or appended to; none where nothing is known."""
    path = folder / JOURNAL
    if not path.exists():
        return []
    try:
        journal_text(path)
    except DeskError as error:
        return [f"{folder / str(error)}."]
    return []
