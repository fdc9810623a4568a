"""Why a feed is refused, beyond the line of its first refusal, and how it is mended."""
from __future__ import annotations

import re
from pathlib import Path

from desk.dates import Days
from desk.errors import DeskError
from desk.hints.files import like_names
from desk.hints.machine import folder_hints
from desk.hints.settings import key_hints
from desk.hints.stop_times import trip_hints
from desk.hints.tables import empty_hints, header_hints, length_hints, record_hints
from desk.hints.toml import toml_hints
from desk.hints.trips import TripFile
from desk.limits import MOST_PLACES, MOST_RULES, MOST_TRIPS
from desk.town import Town

LINE = re.compile(r"([a-z_]+\.[a-z]+)(?: record ([0-9]+))?: (.*)", re.DOTALL)
OF_A_TRIP = re.compile(r"trip (.*) (has too few stops|has a sequence twice|has no time at an end|not forward)", re.DOTALL)


def refusal_hints(town: Town, refusal: str) -> list[str]:
    """What is known of a refusal, which is its line behind `feed refused: `; none where nothing is."""
    found = LINE.fullmatch(refusal)
    if found is None:
        return []
    path, number, text = town.path(found[1]), found[2], found[3]
    try:
        if text.startswith("missing"):
            return missing_hints(town, path)
        if number is not None:
            return _of_record(town, path, int(number), text)
        return _of_file(town, path, text)
    except (DeskError, OSError):
        return []


def missing_hints(town: Town, path: Path) -> list[str]:
    """Where a file is that must be there."""
    if path.name == "calendar.txt":
        return ["desk.toml has a date, and neither calendar.txt nor calendar_dates.txt is there. "
                "Copy them from the agency's feed, or list `services` in place of the date."]
    like = like_names(path.parent, path.name) if path.parent.is_dir() else {}
    return [f"{path.parent / other} has nearly the name of {path.name}. Rename it." for other in like] or folder_hints(town.folder)


def _of_record(town: Town, path: Path, number: int, text: str) -> list[str]:
    """Why a record is refused."""
    return _too_many_trips(town) if text == "too many trips" else record_hints(path, number, text)


def _of_file(town: Town, path: Path, text: str) -> list[str]:
    """Why a file as a whole is refused."""
    if text.startswith("not TOML"):
        return toml_hints(path)
    if path.name == "desk.toml" and text.startswith("bad "):
        return key_hints(town, text.removeprefix("bad "))
    if text == "too long":
        return length_hints(path)
    if text == "no header":
        return empty_hints(path)
    if text.startswith("no column "):
        return header_hints(path, text.removeprefix("no column "))
    if text == "too many places":
        return _too_many_places(town)
    if text == "too many trips":
        return _too_many_trips(town)
    if text == "too many records" and path.name == "pairs.csv":
        return [f"{path.name}: it has more than {MOST_RULES:,} records. Take out those of trips that run no more."]
    found = OF_A_TRIP.fullmatch(text)
    return trip_hints(path, found[1], found[2]) if found else []


def _too_many_trips(town: Town) -> list[str]:
    """How many trips are selected, and how fewer are."""
    trips = TripFile(town)
    found = f"desk.toml selects {len(trips.selected)} trips, and {MOST_TRIPS} may be."
    if town.date is not None:
        return [f"{found} `./desk part {town.folder} --by agency`, or `--by routes`, makes smaller towns of it."]
    return [f"{found} Write the date of one day, as `date = \"{_a_date(town, trips)}\"`."]


def _a_date(town: Town, trips: TripFile) -> str:
    """A date on which trips run, or the form of one where none is known."""
    span = Days(town.calendars, trips.services).range
    return f"{span[0]:%Y%m%d}" if span else "20260907"


def _too_many_places(town: Town) -> list[str]:
    """How fewer places are met."""
    if town.has("terminals.csv"):
        return [f"more than {MOST_PLACES} places are met. Name more platforms of one station in terminals.csv, or plan fewer routes."]
    return ["each platform is a place of its own, since terminals.csv is not there. `./desk new` drafts it."]
