"""Names of a feed that would hide where a line or a trip of the program's texts ends.

The texts put names as they are. A trip that is named `X 06:00 06:30; Y` would be read as two, and nothing of the text tells.
"""
from __future__ import annotations

import re
from collections.abc import Callable, Iterator
from pathlib import Path

from desk.errors import DeskError
from desk.files import read_text
from desk.records import records_of
from desk.town import STATED, DayTrip, Town

TRIPS, BLOCKS, PLACES = "trips", "blocks", "places"

NAMES = {"fixed": (TRIPS,), "blocks": (TRIPS,), "audit": (TRIPS, BLOCKS), "deficits": (PLACES,), "joined": (PLACES,), "chains": (PLACES,)}
"""Which names of the day each command puts as they are; of the others only names in scripts are."""

NAMES_OF: dict[str, Callable[[DayTrip], tuple[str, ...]]] = {
    TRIPS: lambda trip: (trip.trip_id,), BLOCKS: lambda trip: (trip.block_id,), PLACES: lambda trip: (trip.start, trip.end)}
"""The names of each kind that a trip has."""

JOINED_BY_SEMICOLONS = ("fixed", "blocks", "chains")
"""The commands with lines whose parts are joined by `; `."""


Fits = Callable[[str], bool]
"""Whether a block may have a name."""

EDITS = ("shift", "cancel", "restore", "extra")
"""The words of the edits that name a trip."""


def refuse_hidden_ends(command: str, town: Town, folder: Path) -> None:
    """A DeskError where a name in the text of this command has a line end, or in lines with parts a `; `.

    The day is that of the town. The scripts stand in the folder, which is the town's or a room's.
    """
    for file, record, name in _names(command, town, folder):
        ends_in_part = command in JOINED_BY_SEMICOLONS and ("; " in name or name.endswith(";"))
        if "\n" in name or ends_in_part:
            where = f"{file} record {record}" if record else file
            raise DeskError(f"{where}: the name {name!r} hides where names end in the text of {command}: what it says cannot be told")


def keeps_names(town: Town) -> bool:
    """Whether blocks keep the names that the feed states."""
    return town.settings.get("block_names") == "stated"


def fitting_names(command: str, town: Town, folder: Path) -> Fits | None:
    """Which names blocks may have in the text of a command: those that the feed in the folder states, or numbers. None where all are
    numbers, or the text names no block by its line."""
    if command not in ("fixed", "blocks") or not keeps_names(town):
        return None
    # A room has a trips.txt of its own where a day type states blocks of its own.
    stating = Town(folder, town.settings) if town.above and town.has(STATED) else town
    stated = {trip.block_id for trip in stating.selected.values()}
    numbered = re.compile(re.escape(str(town.settings.get("block_prefix", "B"))) + "[1-9][0-9]*")
    return lambda name: name in stated or numbered.fullmatch(name) is not None


def _names(command: str, town: Town, folder: Path) -> Iterator[tuple[str, int, str]]:
    """Each name that the text of a command may put, with where it stands: in which file, and in which record, or 0."""
    kinds = NAMES.get(command, ())
    if TRIPS in kinds and BLOCKS not in kinds and keeps_names(town):
        kinds = (*kinds, BLOCKS)
    for trip in town.day() if PLACES in kinds else town.selected.values() if kinds else ():
        for kind in kinds:
            for name in NAMES_OF[kind](trip):
                yield "trips.txt", trip.record, name
    if PLACES in kinds:
        yield from (("deadheads.csv", record, name) for name, record in town.deadhead_places.items())
    yield from _script_names(folder / "edits.csv", 0)
    if command == "planners":
        yield from _script_names(folder / "planner_edits.csv", 1)
    if kinds:
        yield from (("desk.toml", 0, str(name)) for name in (town.settings.get("block_prefix", ""), *town.table("classes").values()))


def _script_names(path: Path, word: int) -> Iterator[tuple[str, int, str]]:
    """The trips of a script, and where the word of an edit is the second field the planners before it."""
    if path.is_file():
        for number, fields in records_of(path.name, "script\n" + read_text(path)):
            if len(fields) > word + 1 and fields[word].strip(" ") in EDITS:
                yield from ((path.name, number, name) for name in (*fields[:word], fields[word + 1]))
