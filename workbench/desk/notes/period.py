"""Notes of a town with days: those of each day type, and where the files of one differ from those of the town."""
from __future__ import annotations

from collections.abc import Callable, Iterator
from pathlib import Path
from typing import Any

from desk.errors import DeskError
from desk.notes.note import Note
from desk.period import TownPeriod, day_folders
from desk.records import open_records
from desk.rooms import FEED_FILES
from desk.town import AGENCY_FILES, DAYS, OF_A_DAY, Town

SHARED = tuple(name for name in (*FEED_FILES, "extras.csv") if name not in (*AGENCY_FILES, *OF_A_DAY))
"""The planner's files of a town that a day type may have for itself."""

MOST_SHOWN = 4
"""How many days a note names."""


def notes_of_period(folder: Path, notes_of: Callable[[Town], list[Note]]) -> list[Note]:
    """The notes of the period, of the files that differ, and of each day type. One that all day types have stands once."""
    paths = day_folders(folder)
    found = [*_of_dates(folder), *(note for path in paths for note in differences(path, Town(folder)))]
    days_of: dict[Note, list[str]] = {}
    for path in paths:
        for note in notes_of(Town(path)):
            own = note.file in OF_A_DAY or (path / note.file).exists() and note.file
            note = note._replace(file=f"{DAYS}/{path.name}/{note.file}") if own else note
            days_of.setdefault(note, []).append(path.name)
    for note, names in days_of.items():
        is_of_all = len(names) == len(paths) or note.file.startswith(f"{DAYS}/")
        found.append(note if is_of_all else note._replace(found=f"{note.found}, in {_some(names)}"))
    return found


def _some(names: list[str]) -> str:
    """The first of some names."""
    more = len(names) - MOST_SHOWN
    return ", ".join(f"{DAYS}/{name}" for name in names[:MOST_SHOWN]) + (f" and {more} more" if more > 0 else "")


def _of_dates(folder: Path) -> Iterator[Note]:
    """What keeps the folders from being one for each day type."""
    try:
        for text in TownPeriod(folder).troubles():
            place, _, what = text.partition(": ")
            yield Note("day-types", place, None, what, f"`./desk days {folder}` lists the day types, and `./desk new FEED {folder} --more` "
                       "makes folders for those that have none")
    except DeskError as error:
        yield Note("unreadable", "", None, str(error), "Mend the file")


def differences(day: Path, town: Town) -> Iterator[Note]:
    """Where the files of a day type go before those of its town."""
    own = Town(day)
    for name in AGENCY_FILES:
        if (day / name).exists():
            yield Note("not-read", f"{DAYS}/{day.name}/{name}", None, "the agency's files are those of the town, and this one is not read",
                       "Take it away")
    for name in SHARED:
        if own.path(name) == day / name:
            yield _of_file(day, name, town)
    try:
        settings, shared = Town(day).settings, town.settings
    except DeskError:
        return
    for what in _keys(settings, shared):
        yield Note("differs", f"{DAYS}/{day.name}/desk.toml", None, what, "Take the line away where the day type needs nothing of its own")


def _keys(settings: dict[str, Any], shared: dict[str, Any], table: str = "") -> Iterator[str]:
    """What differs of settings, key by key."""
    for key, value in settings.items():
        if key == "date" and not table or value == shared.get(key):
            continue
        if isinstance(value, dict):
            yield from _keys(value, shared.get(key) if isinstance(shared.get(key), dict) else {}, f"[{key}] ")
        else:
            there = shared.get(key)
            yield f"{table}{key} is {value!r}, and in desk.toml of the town " + ("it is not there" if there is None else f"it is {there!r}")


def _of_file(day: Path, name: str, town: Town) -> Note:
    """That a file of a day type goes before that of the town, and by how many records."""
    place = f"{DAYS}/{day.name}/{name}"
    if not (town.folder / name).is_file():
        return Note("differs", place, None, f"the town has no {name}, and this one is read on this day type alone",
                    "Move it into the town where it is for all day types")
    own, shared = _records(day / name), _records(town.folder / name)
    return Note("differs", place, None, f"it goes before {name} of the town: {len(own - shared)} of its records are not there, and "
                f"{len(shared - own)} of those are not here", "Take it away where the day type needs nothing of its own")


def _records(path: Path) -> set[tuple[str, ...]]:
    """The records of a file; none where it cannot be read."""
    try:
        with open_records(path) as records:
            return {tuple(fields) for _, fields in records}
    except DeskError:
        return set()
