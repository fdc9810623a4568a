"""The files of a zip, by names that stay inside the folder into which they are unpacked."""
from __future__ import annotations

import lzma
import re
import stat
import struct
import zipfile
import zlib
from collections.abc import Callable, Iterator
from contextlib import contextmanager
from pathlib import Path, PurePosixPath
from typing import BinaryIO

from desk.errors import DeskError
from desk.files import reason

Files = dict[PurePosixPath, Callable[[], BinaryIO]]
"""Files by their names, and how each is opened."""

MOST_BYTES = 4 << 30
"""The most bytes that the files of a feed may have in all."""

MOST_FILES = 1_000
"""The most files of a feed, and the most entries of a zip."""

DAMAGES = (zipfile.BadZipFile, zlib.error, lzma.LZMAError, struct.error, EOFError, NotImplementedError, RuntimeError,
           ValueError, OverflowError)
"""What the library raises of a zip that is damaged, encrypted, or of a kind that it does not know."""


@contextmanager
def zip_files(path: Path) -> Iterator[Files]:
    """The files of a zip, which is open inside the block. It is a DeskError where one of its entries may not be unpacked."""
    try:
        file = open(path, "rb")
    except OSError as error:
        raise DeskError(f"{path}: {reason(error)}") from error
    with file:
        try:
            archive = zipfile.ZipFile(file)
        except UnicodeDecodeError as error:
            raise DeskError(f"{path}: a name in it is not UTF-8") from error
        except (*DAMAGES, OSError) as error:
            raise DeskError(f"{path} is no zip that can be read: {error}") from error
        with archive:
            yield _judged(path, archive)


def _judged(path: Path, archive: zipfile.ZipFile) -> Files:
    """The files of a zip whose entries are all judged."""
    files: Files = {}
    entries = archive.infolist()
    if len(entries) > MOST_FILES:
        raise DeskError(f"{path}: it has {len(entries):,} entries, and a feed has at most {MOST_FILES:,}")
    if sum(entry.file_size for entry in entries) > MOST_BYTES:
        raise DeskError(f"{path}: its files have more than {MOST_BYTES:,} bytes in all")
    for entry in entries:
        name = _name(path, entry)
        kind = stat.S_IFMT(entry.external_attr >> 16)
        if kind not in (0, stat.S_IFREG, stat.S_IFDIR):
            raise DeskError(f"{path}: {name} in it is a link or another thing that is no file")
        if kind == stat.S_IFDIR or entry.orig_filename.endswith(("/", "\\")):
            continue
        if name in files:
            raise DeskError(f"{path}: {name} stands in it twice")
        files[name] = lambda entry=entry: archive.open(entry)
    return files


def _name(path: Path, entry: zipfile.ZipInfo) -> PurePosixPath:
    """The name of an entry, in which a backslash separates folders too. It is a DeskError where it leads elsewhere."""
    name = entry.orig_filename
    if not entry.flag_bits & 0x800:
        try:
            name = name.encode("cp437").decode("utf-8")
        except UnicodeError as error:
            raise DeskError(f"{path}: a name in it is not UTF-8: {name}") from error
    name = name.replace("\\", "/")
    parts = [part for part in name.split("/") if part not in ("", ".")]
    if name.startswith("/") or re.match("[A-Za-z]:", name) or ".." in parts or "\0" in name:
        raise DeskError(f"{path}: the name {name} in it leads out of the folder")
    if not parts:
        raise DeskError(f"{path}: the name {name!r} in it is that of no file")
    return PurePosixPath(*parts)
