"""A town is made in a room beside it, and moved to its place when all of it is made.

A town that is there is made anew all or none. Its files go aside, into a folder of the town, while those of the room come in. Where
that is cut off, `undo` puts them back: at once after an error, and by the next command after a kill.
"""
from __future__ import annotations

import json
import os
import re
import shutil
from collections.abc import Iterator
from contextlib import ExitStack, contextmanager
from pathlib import Path

from desk.errors import DeskError
from desk.files import new_mode, read_bytes, reason, refuse_no_file, sync_folder, write_whole
from desk.hints.files import GTFS
from desk.locks import locked
from desk.rooms import own_room
from desk.town import AGENCY_FILES

PLANNER_FILES = ("desk.toml", "terminals.csv", "deadheads.csv", "depot.csv", "pairs.csv")
"""The planner's files that are drafted."""

OTHER_FILES = ("tolerances.csv", "edits.csv", "planner_edits.csv", "extras.csv", "journal.db")
"""The planner's files that are not drafted."""

AGENCY = "agency"
"""The folder of a town with the agency's files unchanged."""

BEFORE, STEPS = ".before-new", "steps.json"
"""The folder of a town in which its files stand aside, and the file in it that says which stood there and which come."""


@contextmanager
def town_room(town: Path, replace: bool) -> Iterator[Path]:
    """A folder beside the town to make it in, which is gone afterwards. Files to be overwritten are a DeskError."""
    if os.path.lexists(town) and not town.is_dir():
        raise DeskError(f"{town} is no folder")
    there = [name for name in (*AGENCY_FILES, *PLANNER_FILES, AGENCY) if os.path.lexists(town / name)]
    if there and not replace:
        raise DeskError(f"{town} has {', '.join(there)} already: with --replace they are written anew")
    for name in there:
        if (town / name).is_dir() != (name == AGENCY):
            kinds = ("no folder, and one", "a folder, and a file")
            raise DeskError(f"{town / name} is {kinds[name != AGENCY]} would stand there: move it away")
    with ExitStack() as ended:
        try:
            room = ended.enter_context(own_room(town.parent, f".{town.name}.new-"))
        except OSError as error:
            raise DeskError(f"{town} cannot be made: {reason(error)}") from error
        yield room


def left_as_they_were(room: Path, town: Path) -> list[str]:
    """The planner's files of the town for which nothing was made in the room."""
    return [name for name in (*PLANNER_FILES, *OTHER_FILES) if (town / name).exists() and not (room / name).exists()]


def carry_own(room: Path, town: Path) -> list[str]:
    """Copies what a planner has put beside the agency's files into the new folder of these, and gives its names."""
    carried = []
    for path in sorted((town / AGENCY).iterdir()) if (town / AGENCY).is_dir() else ():
        target = room / AGENCY / path.name
        if path.name in GTFS or path.name in AGENCY_FILES or os.path.lexists(target):
            continue
        try:
            if not path.is_symlink():
                refuse_no_file(path)
            if path.is_dir() and not path.is_symlink():
                shutil.copytree(path, target, symlinks=True)
            else:
                shutil.copy2(path, target, follow_symlinks=False)
        except (OSError, shutil.Error) as error:
            raise DeskError(f"{path} cannot be copied: {error}") from error
        carried.append(f"{AGENCY}/{path.name}")
    return carried


def settle(room: Path, town: Path) -> None:
    """Puts what was made in the room into the town, all or none, once it is on disk. Old files of the agency go."""
    try:
        os.sync()
        if town.exists():
            with locked(town):
                undo(town)
                _exchange(room, town)
        else:
            os.chmod(room, new_mode(0o777))
            os.rename(room, town)
        sync_folder(town.parent)
    except OSError as error:
        raise DeskError(f"{town} cannot be written: {error.filename}: {reason(error)}") from error


def _exchange(room: Path, town: Path) -> None:
    """Takes the files of the town that are made anew, and the agency's old ones, aside, and those of the room in."""
    made = sorted(os.listdir(room))
    was = [name for name in sorted({*made, *AGENCY_FILES}) if os.path.lexists(town / name)]
    (room / BEFORE).mkdir()
    write_whole(room / BEFORE / STEPS, json.dumps({"was": was, "made": made}))
    os.rename(room / BEFORE, town / BEFORE)
    try:
        sync_folder(town)
        for name in was:
            os.rename(town / name, town / BEFORE / name)
        for name in made:
            os.rename(room / name, town / name)
        sync_folder(town)
        # From here on the town is the new one: what stood aside goes with the room.
        os.rename(town / BEFORE, room / BEFORE)
    except BaseException:
        undo(town)
        raise


def undo(town: Path) -> str:
    """Puts a town back that was cut off while it was made anew, and tells so; an empty text where there is none."""
    before = town / BEFORE
    if not before.is_dir():
        return ""
    if (before / STEPS).is_file():
        was, made = _steps(before)
        for name in {*was, *made}:
            if os.path.lexists(before / name):
                _remove(town / name)
                os.rename(before / name, town / name)
            elif name not in was:
                _remove(town / name)
        sync_folder(town)
        (before / STEPS).unlink()
    before.rmdir()
    return f"{town} stands as it was before a `./desk new` that was cut off"


def _steps(before: Path) -> tuple[list[str], list[str]]:
    """Which files stood in a town and which come, by the list that stands aside. A list of another form is a DeskError."""
    try:
        steps = json.loads(read_bytes(before / STEPS))
        was, made = steps["was"], steps["made"]
        in_form = not before.is_symlink() and all(re.fullmatch(r"[^./\0][^/\0]*", name) for name in [*was, *made])
    except (ValueError, TypeError, KeyError):
        in_form = False
    if not in_form:
        raise DeskError(f"{before / STEPS} is none that `./desk new` writes: look what stands in {before}, and move it away")
    return was, made


def _remove(path: Path) -> None:
    """Removes a file or a folder where one stands."""
    if path.is_dir() and not path.is_symlink():
        shutil.rmtree(path)
    else:
        path.unlink(missing_ok=True)
