"""What is in the folder's place, and which file could not be read or written, and why."""
from __future__ import annotations

import difflib
import errno
import os
import shutil
import zipfile
from pathlib import Path

from desk.files import reason
from desk.hints.forms import READ, WRITTEN
from desk.hints.journal import journal_hints

FULL = 1 << 20
"""With fewer bytes to be had a disk counts as full."""


def folder_hints(folder: Path) -> list[str]:
    """What is wrong with a folder in which no feed stands; none where it is one or nothing is known."""
    try:
        if folder.is_file():
            return [_file_hint(folder)]
        if not folder.exists():
            return [_missing_hint(folder)]
        return _feed_hints(folder)
    except OSError as error:
        return [f"{folder}: {reason(error)}."]


def _file_hint(path: Path) -> str:
    """What a file is that stands in the folder's place."""
    if zipfile.is_zipfile(path):
        return f"{path} is a zip. `./desk new {path} TOWN` unpacks it into a folder and drafts the rest."
    if (path.parent / "trips.txt").is_file():
        return f"{path} is a file of the feed. Give its folder, {path.parent}."
    return f"{path} is a file. Give the folder of a feed."


def _missing_hint(folder: Path) -> str:
    """That there is no such folder, and the nearest one that stands beside it."""
    beside = [path.name for path in folder.parent.iterdir() if path.is_dir()] if folder.parent.is_dir() else []
    near = difflib.get_close_matches(folder.name, beside, 1)
    if near:
        return f"there is no folder {folder}. The nearest name beside it is {folder.parent / near[0]}."
    return f"there is no folder {folder}."


def _feed_hints(folder: Path) -> list[str]:
    """Where the feed is that does not stand in this folder: in one below, in the one above, or in a zip."""
    if (folder / "trips.txt").exists():
        return []
    for path in sorted(folder.iterdir()):
        if path.is_dir() and (path / "trips.txt").is_file():
            return [f"trips.txt stands in {path}. Give that folder, or move its files into {folder}."]
    for path in sorted(folder.iterdir()):
        if path.suffix.lower() == ".zip" and zipfile.is_zipfile(path):
            return [f"{path} is a zip. `./desk new {path} TOWN` unpacks it into a folder and drafts the rest."]
    above = Path(os.path.normpath(folder.absolute())).parent
    if (above / "trips.txt").is_file():
        return [f"trips.txt stands in {above}, the folder above. Give that one."]
    return []


def read_hints(command: str, folder: Path) -> list[str]:
    """Which file could not be read, and why."""
    if not folder.is_dir():
        return folder_hints(folder) if os.path.lexists(folder) else []
    for name in READ.get(command, ()):
        path = folder / name
        try:
            with open(path, "rb") as file:
                file.read(1)
        except FileNotFoundError:
            continue
        except IsADirectoryError:
            return [f"{path} is a folder, and a file is read there. Move it away."]
        except OSError as error:
            return [f"{path} cannot be read: {reason(error)}.{_allowed(error, 'read')}"]
    return []


def write_hints(command: str, folder: Path) -> list[str]:
    """Which file could not be written, and why. Nothing is written to find it."""
    for name in WRITTEN.get(command, ()):
        path = folder / name
        why = _why_not_written(path)
        if why:
            return [f"{path} cannot be written: {why}"]
    free = shutil.disk_usage(folder).free if folder.is_dir() else FULL
    return [f"the disk of {folder} is full. Make room, and run the command again."] if free < FULL else []


def _why_not_written(path: Path) -> str | None:
    """Why a file could not be written; None where nothing is known."""
    if path.is_dir():
        return "a folder stands there. Move it away."
    try:
        if os.path.lexists(path):
            os.close(os.open(path, os.O_WRONLY))
        elif not path.parent.is_dir():
            return f"there is no folder {path.parent}."
        elif os.statvfs(path.parent).f_flag & os.ST_RDONLY:
            return f"{os.strerror(errno.EROFS)}."
        elif not os.access(path.parent, os.W_OK | os.X_OK):
            return f"the folder may not be changed by you.{_allowed(OSError(errno.EACCES, ''), 'write')}"
    except OSError as error:
        return f"{reason(error)}.{_allowed(error, 'write')}"
    return None


def _allowed(error: OSError, what: str) -> str:
    """What helps where a permission is missing."""
    return f" Ask for the permission to {what} it, or copy the folder." if error.errno in (errno.EACCES, errno.EPERM) else ""


def keeper_hints(folder: Path) -> list[str]:
    """Why the journal could not be read or appended to."""
    if not folder.is_dir():
        return folder_hints(folder)
    found = journal_hints(folder)
    if found:
        return found
    for path in (folder / "journal.db", folder):
        if path.exists() and not os.access(path, os.W_OK):
            return [f"{path} may not be written by you.{_allowed(OSError(errno.EACCES, ''), 'write')}"]
    free = shutil.disk_usage(folder).free
    return [f"the disk of {folder} is full. Make room, and run the command again."] if free < FULL else []
