"""Files are read in words and written whole: under another name in the same folder, synced, and renamed."""
from __future__ import annotations

import os
import stat
import tempfile
from collections.abc import Iterator
from contextlib import contextmanager
from pathlib import Path
from typing import BinaryIO

from desk.errors import DeskError


KINDS = ((stat.S_ISFIFO, "a named pipe"), (stat.S_ISCHR, "a device"), (stat.S_ISBLK, "a device"), (stat.S_ISSOCK, "a socket"))
"""What is neither a file nor a folder."""


def reason(error: OSError) -> str:
    """Why a call of the operating system failed, in its words."""
    return error.strerror or str(error)


def refuse_no_file(path: Path) -> None:
    """A DeskError where a named pipe, a device or a socket stands, or a link to one. To read it may wait, or never end."""
    try:
        mode = os.stat(path).st_mode
    except (OSError, ValueError):
        return
    kind = next((kind for is_kind, kind in KINDS if is_kind(mode)), None)
    if kind:
        kind = f"a link to {kind}" if os.path.islink(path) else kind
        raise DeskError(f"{path} is {kind}, and a file would stand there: move it away")


def read_bytes(path: Path) -> bytes:
    """The bytes of a file, or a DeskError that names it."""
    refuse_no_file(path)
    try:
        return path.read_bytes()
    except OSError as error:
        raise DeskError(f"{path}: {reason(error)}") from error


def read_text(path: Path) -> str:
    """The text of a file without its byte-order mark.

    Bytes that are not UTF-8 stand as surrogates, and `write_whole` writes them back.
    """
    return read_bytes(path).decode("utf-8", "surrogateescape").removeprefix("\ufeff")


def refuse_if_there(path: Path, replace: bool) -> None:
    """A DeskError where the path is there and may not be replaced."""
    if not replace and os.path.lexists(path):
        raise DeskError(f"{path} is there already: with --replace it is written anew")


def sync_folder(folder: Path) -> None:
    """Asks the machine to keep the names of a folder, so that a file that was renamed stands there after a power cut."""
    number = os.open(folder, os.O_RDONLY | os.O_DIRECTORY)
    try:
        os.fsync(number)
    finally:
        os.close(number)


@contextmanager
def whole_file(path: Path, *, replace: bool = False) -> Iterator[BinaryIO]:
    """A file to write into, which stands at the path once the block is left without an error, and else does not."""
    refuse_if_there(path, replace)
    try:
        number, room = tempfile.mkstemp(prefix=f".{path.name}.", dir=path.parent)
    except OSError as error:
        raise DeskError(f"{path} cannot be written: {reason(error)}") from error
    try:
        with os.fdopen(number, "wb") as file:
            yield file
            file.flush()
            os.fsync(file.fileno())
        os.chmod(room, new_mode(0o666))
        refuse_if_there(path, replace)
        os.replace(room, path)
        sync_folder(path.parent)
    except OSError as error:
        raise DeskError(f"{path} cannot be written: {reason(error)}") from error
    finally:
        if os.path.lexists(room):
            os.unlink(room)


def write_whole(path: Path, content: str | bytes, *, replace: bool = False) -> None:
    """Writes a file whole. A file that is there stays as it is and is a DeskError, where it is not to be replaced."""
    if isinstance(content, str):
        content = content.encode("utf-8", "surrogateescape")
    with whole_file(path, replace=replace) as file:
        file.write(content)


def new_mode(mode: int) -> int:
    """The permissions that a new file of this process gets of these."""
    mask = os.umask(0o077)
    os.umask(mask)
    return mode & ~mask
