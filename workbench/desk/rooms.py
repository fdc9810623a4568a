"""A room: a folder of one run, with the files of a town as links and scripts of its own.

The program runs in the room as it would in the town, and writes there. So a script is tried before it stands in the town.
"""
from __future__ import annotations

import fcntl
import hashlib
import os
import re
import shutil
import stat
import tempfile
import time
from collections.abc import Iterator, Mapping
from contextlib import contextmanager, suppress
from functools import cache
from pathlib import Path

from desk.files import read_bytes
from desk.locks import is_taken
from desk.stated_blocks import lay_stated
from desk.toml import toml_text
from desk.town import STATED, Town

PREFIX = "blockdesk-room-"
"""How the names of rooms in the system's folder for such begin."""

NEW = 60.0
"""For how many seconds a room is left alone, since its run may not hold it yet."""

FEED_FILES = ("desk.toml", "terminals.csv", "tolerances.csv", "calendar.txt", "calendar_dates.txt", "trips.txt",
              "stop_times.txt", "deadheads.csv", "depot.csv", "pairs.csv")
"""The files of a feed that the program reads, but for the scripts."""

SCRIPTS = ("edits.csv", "planner_edits.csv")
"""The scripts that the program reads."""


Scripts = dict[str, bytes]
"""The scripts of a town by the names of their files, and other files that are tried in place of the town's."""


@contextmanager
def own_room(folder: Path | None = None, prefix: str = PREFIX) -> Iterator[Path]:
    """An empty folder of this run, which is gone behind the block. What killed runs have left beside it goes too.

    The run holds a lock on it, by which it is told from one that nobody has.
    """
    folder = Path(tempfile.gettempdir()) if folder is None else folder
    sweep(folder, prefix)
    with tempfile.TemporaryDirectory(prefix=prefix, dir=folder, ignore_cleanup_errors=True) as name:
        held = os.open(name, os.O_RDONLY | os.O_DIRECTORY)
        try:
            with suppress(OSError):
                fcntl.flock(held, fcntl.LOCK_EX | fcntl.LOCK_NB)
            yield Path(name)
        finally:
            os.close(held)


@cache
def sweep(folder: Path, prefix: str) -> None:
    """Removes the rooms in a folder that killed runs of this user have left: those that nobody holds and that are not new."""
    paths: list[Path] = []
    with suppress(OSError):
        paths += folder.iterdir()
    for path in paths:
        if re.fullmatch(re.escape(prefix) + "[a-z0-9_]{8}", path.name):
            with suppress(OSError):
                found = path.lstat()
                if stat.S_ISDIR(found.st_mode) and found.st_uid == os.geteuid() and time.time() - found.st_mtime > NEW:
                    _remove(path)


def _remove(path: Path) -> None:
    """Removes a room that nobody holds."""
    held = os.open(path, os.O_RDONLY | os.O_DIRECTORY | os.O_NOFOLLOW)
    try:
        if is_taken(held):
            shutil.rmtree(path, ignore_errors=True)
    finally:
        os.close(held)


def scripts_of(town: Town) -> Scripts:
    """The scripts that stand in a town."""
    return {name: read_bytes(town.path(name)) for name in SCRIPTS if town.has(name)}


@contextmanager
def room_of(town: Town, scripts: Mapping[str, bytes], of_today: bool = False) -> Iterator[Path]:
    """A folder with the feed of the town and with these scripts alone, which is gone behind the block. A file of the feed that is
    among them stands in place of the town's.

    The blocks that it states are those of today, or where a day type states others these.
    """
    with own_room() as room:
        for file in FEED_FILES:
            if file not in scripts and town.path(file).exists():
                (room / file).symlink_to(town.path(file).resolve())
        lay_settings(town, room)
        if not of_today:
            lay_stated(town, room)
        for file, content in scripts.items():
            (room / file).write_bytes(content)
        yield room


def lay_settings(town: Town, room: Path) -> None:
    """Writes the settings of a day type into a room. The program reads one file of them, and those of a day type stand in two."""
    if town.above:
        (room / "desk.toml").unlink()
        (room / "desk.toml").write_text(toml_text(town.settings), encoding="utf-8")


def state_of(town: Town, names: tuple[str, ...] = FEED_FILES + SCRIPTS) -> str:
    """A word that is another one as soon as one of these files is written, comes or goes."""
    parts = []
    of_a_day = [town.above / "desk.toml", town.path(STATED)] if town.above else []
    for name in (*names, *of_a_day):
        try:
            found = town.path(str(name)).stat()
            parts.append(f"{name} {found.st_ino} {found.st_size} {found.st_mtime_ns}")
        except OSError:
            parts.append(f"{name} missing")
    return hashlib.sha256("\n".join(parts).encode()).hexdigest()[:24]
