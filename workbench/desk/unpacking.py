"""The agency's files, from a zip or a folder, copied unchanged into a folder."""
from __future__ import annotations

from collections.abc import Callable, Iterator
from contextlib import contextmanager
from pathlib import Path, PurePosixPath
from typing import BinaryIO

from desk.errors import DeskError
from desk.files import reason, refuse_no_file
from desk.hints.files import GTFS
from desk.town import AGENCY_FILES
from desk.zips import DAMAGES, MOST_BYTES, MOST_FILES, Files, zip_files

PIECE = 1 << 20
"""How many bytes are copied at a time."""

NAMES_TOLD = 8
"""How many names of files a message lists."""


def unpack(feed: Path, agency: Path) -> list[str]:
    """Copies the files of the feed that lie beside its `trips.txt` into this folder, and gives their names."""
    if not feed.exists():
        raise DeskError(f"{feed} is not there")
    refuse_no_file(feed)
    names, in_all = [], 0
    with (folder_files(feed) if feed.is_dir() else zip_files(feed)) as files:
        inside = feed_folder(feed, list(files))
        beside = {path.name: opened for path, opened in files.items() if path.parent == inside}
        if len(beside) > MOST_FILES:
            raise DeskError(f"{feed}: {len(beside):,} files lie beside its trips.txt, and a feed has at most {MOST_FILES:,}")
        for name, opened in beside.items():
            in_all += _copy(name, opened, agency / name, MOST_BYTES - in_all)
            names.append(name)
    return names


@contextmanager
def folder_files(folder: Path) -> Iterator[Files]:
    """The files of a folder and of the folders in it, by their names."""
    try:
        paths = [*folder.iterdir(), *folder.glob("*/*")]
        for path in paths:
            if path.name in GTFS or path.name in AGENCY_FILES:
                refuse_no_file(path)
        files = sorted(path for path in paths if path.is_file())
    except OSError as error:
        raise DeskError(f"{folder}: {reason(error)}") from error
    yield {PurePosixPath(path.relative_to(folder)): lambda path=path: open(path, "rb") for path in files}


def feed_folder(feed: Path, paths: list[PurePosixPath]) -> PurePosixPath:
    """The one folder in which `trips.txt` lies, the top before others. None and several are a DeskError."""
    folders = sorted(path.parent for path in paths if path.name == "trips.txt" and "__MACOSX" not in path.parts)
    if PurePosixPath() in folders:
        return PurePosixPath()
    if len(folders) > 1:
        raise DeskError(f"{feed}: trips.txt lies in several of its folders: {', '.join(map(str, folders))}")
    if not folders:
        told = ", ".join(map(str, paths[:NAMES_TOLD])) + (", .." if len(paths) > NAMES_TOLD else "")
        raise DeskError(f"{feed}: no trips.txt in it; " + (f"it has {told}" if paths else "it has no file"))
    return folders[0]


def _copy(name: str, opened: Callable[[], BinaryIO], path: Path, most: int) -> int:
    """Copies a file of at most so many bytes, and gives how many it has."""
    copied = 0
    try:
        with opened() as source, open(path, "xb") as target:
            while piece := source.read(PIECE):
                copied += len(piece)
                if copied > most:
                    raise DeskError(f"{name}: with it the files have more than {MOST_BYTES:,} bytes in all")
                target.write(piece)
    except DAMAGES as error:
        raise DeskError(f"{name} cannot be unpacked: {error}") from error
    except OSError as error:
        raise DeskError(f"{name} cannot be unpacked: {reason(error)}") from error
    return copied
