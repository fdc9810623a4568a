"""The writer of a script: one at a time, record by record, and whole.

A script is written under another name, synced, and renamed. So at any time it is the one before a record or the one after it.
"""
from __future__ import annotations

import os
import re
from collections.abc import Iterator
from contextlib import contextmanager
from pathlib import Path

from desk.errors import UsageError
from desk.files import read_bytes, sync_folder, write_whole
from desk.locks import WAIT, locked
from desk.pair_rules import FILE
from desk.records import record_text
from desk.rooms import SCRIPTS
from desk.scripts import with_record
from desk.texts import Json

NEXT, TAKEN = ".next-", ".taken-"
"""The prefixes of two scripts' names while what stands in one goes into the other: for the other as it will be, for the one."""

LEFT = re.compile(rf"\.({re.escape(NEXT)})?({'|'.join(map(re.escape, (*SCRIPTS, FILE)))})\.[a-z0-9_]{{8}}")
"""What a killed writer leaves beside these files. What an editor keeps there has other names, as `.edits.csv.swp`."""

FORMS: dict[str, tuple[tuple[str, type], ...]] = {
    "shift": (("trip", str), ("shift", int)),
    "cancel": (("trip", str),),
    "restore": (("trip", str),),
    "extra": (("trip", str), ("from", str), ("to", str), ("departs", str), ("arrives", str)),
    "undo": (),
    "redo": (),
}
"""What each edit says, in the order of its record."""


class Script:
    """A script whose lock is held."""

    def __init__(self, path: Path) -> None:
        self.path = path
        self.content = read_bytes(path) if path.is_file() else b""

    def write(self, content: bytes) -> None:
        """Writes the script whole."""
        write_whole(self.path, content, replace=True)
        self.content = content

    def append(self, record: bytes) -> None:
        """Writes the script with a record behind it."""
        self.write(with_record(self.content, record))

    def take(self, other: Path, content: bytes) -> None:
        """Writes the script with what another one has left in it, and empties that one. Where this is killed, both are or neither is."""
        following, taken = beside(self.path, NEXT), beside(other, TAKEN)
        write_whole(following, content, replace=True)
        os.replace(other, taken)
        sync_folder(self.path.parent)
        os.replace(following, self.path)
        sync_folder(self.path.parent)
        finish_taking(self.path.parent)
        self.content = content


@contextmanager
def writing(path: Path, wait: float = WAIT) -> Iterator[Script]:
    """A script of a town. Inside the block no other writer writes a script of it. What a killed writer has left is gone."""
    with locked(path.parent, wait):
        for left in path.parent.glob(".*"):
            if LEFT.fullmatch(left.name):
                left.unlink()
        finish_taking(path.parent)
        yield Script(path)


def is_taking(town: Path) -> bool:
    """Whether something is left of a script that was being taken into another one."""
    own, planned = (town / name for name in SCRIPTS)
    return beside(planned, TAKEN).is_file() or beside(own, NEXT).is_file()


def finish_taking(town: Path) -> None:
    """Ends what a writer has begun that was killed while it took a script into another one. What was not yet taken stands again.

    The lock of the town is held.
    """
    if not is_taking(town):
        return
    own, other = (town / name for name in SCRIPTS)
    following, taken = beside(own, NEXT), beside(other, TAKEN)
    if taken.is_file():
        left = read_bytes(taken) if following.is_file() else b""
        stands = read_bytes(other) if other.is_file() else b""
        if not (other.is_file() and stands.startswith(left)):
            write_whole(other, with_record(left, stands), replace=True)
    taken.unlink(missing_ok=True)
    following.unlink(missing_ok=True)
    sync_folder(town)


def beside(path: Path, kind: str) -> Path:
    """A file of a writer beside a script."""
    return path.with_name(kind + path.name)


def record_of(edit: Json, planner: str | None) -> bytes:
    """The record of an edit, behind the name of its planner where there is one. One of another form is a UsageError."""
    word = edit.get("edit")
    if not isinstance(word, str) or word not in FORMS or word == "redo" and planner is not None:
        raise UsageError("this is no edit")
    fields = [word]
    for name, kind in FORMS[word]:
        value = edit.get(name)
        if type(value) is not kind:
            raise UsageError(f"{word}: {name} is missing or of another kind")
        fields.append(f"{value:+d}" if isinstance(value, int) else value)
    try:
        return record_text(fields if planner is None else [planner, *fields]).encode("utf-8")
    except UnicodeEncodeError as error:
        raise UsageError(f"{word}: a name is no text") from error
