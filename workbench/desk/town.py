"""A town: the folder with an agency's files and a planner's own, and the trips of the day that it selects.

A town may have a folder for each of its day types, below `days/`. Such a folder has files of its own, and shares all others with the
town. Its settings are those of the town, but where its own `desk.toml` says something else.
"""
from __future__ import annotations

import datetime
import os
from collections.abc import Callable, Mapping, Sequence
from dataclasses import dataclass
from functools import cached_property
from pathlib import Path
from typing import Any

from desk.calendars import Calendars, parse_date, read_calendars
from desk.errors import DeskError
from desk.files import read_text
from desk.records import Records, open_records
from desk.stops import Stop, read_stops
from desk.times import is_no_time, parse_time
from desk.toml import read_toml


DAYS = "days"
"""The folder of a town in which the folders of its day types stand."""

AGENCY_FILES = ("trips.txt", "stop_times.txt", "calendar.txt", "calendar_dates.txt")
"""The agency's files that the program reads. A day type has none of its own."""

STATED = "stated.csv"
"""The blocks that the plan of a day type stays near, as `./desk plan` finds them in the plans of busier ones."""

OF_A_DAY = ("desk.toml", "edits.csv", "planner_edits.csv", "blocks.csv", "prices.csv", "boards.csv", "trips_blocks.txt",
            "stop_times_blocks.txt", "plan.json", STATED, "journal.db", "saved")
"""What each day type has for itself. Any other file is that of the town, where the day's folder has none of its own."""


@dataclass(slots=True)
class DayTrip:
    """A selected trip. `start` and `end` are places as the program names them; times are seconds, or None without one."""

    trip_id: str
    record: int
    service_id: str
    route_id: str
    headsign: str
    block_id: str
    vehicle_class: str | None
    rows: int = 0
    first_stop: str = ""
    last_stop: str = ""
    start: str = ""
    end: str = ""
    departure: int | None = None
    arrival: int | None = None
    first_sequence: int = 1 << 62
    last_sequence: int = -1


ENDS = ("rows", "first_stop", "last_stop", "departure", "arrival", "first_sequence", "last_sequence")
"""What the rows of `stop_times.txt` say of a trip, on all days."""


def town_above(folder: Path) -> Path | None:
    """The folder of the town whose day type this folder has, or None where it is none: `town` of `town/days/fri`."""
    whole = Path(os.path.abspath(folder))
    if whole.parent.name != DAYS or not (whole / "desk.toml").is_file() or not (whole.parents[1] / "trips.txt").is_file():
        return None
    return folder.parent.parent if folder.name and folder.parent.name == DAYS else whole.parents[1]


class Town:
    """The files of a folder. Each is read when it is first asked for, and once. `above` is the town whose day type it has, or None."""

    def __init__(self, folder: Path | str, settings: dict[str, Any] | None = None) -> None:
        """The town of a folder. With `settings`, these stand in place of what its `desk.toml` says."""
        self.folder = Path(folder)
        self.above = town_above(self.folder)
        if settings is not None:
            self.settings = settings

    @property
    def title(self) -> str:
        """What the town is called: its folder, and of a day type that of its town before it."""
        name = self.folder.resolve().name
        return f"{self.above.resolve().name}, {name}" if self.above else name

    @property
    def feed(self) -> Path:
        """The folder in which the agency's files stand."""
        return self.above or self.folder

    def path(self, name: str) -> Path:
        """Where a file of the town stands, or would stand."""
        own = self.folder / name
        if self.above is None or name in OF_A_DAY:
            return own
        return own if name not in AGENCY_FILES and os.path.lexists(own) else self.above / name

    def has(self, name: str) -> bool:
        """Whether a file of this name stands in the town."""
        return self.path(name).is_file()

    def agency_path(self, name: str) -> Path:
        """Where a file of the agency stands that the program does not read: in `agency/`, else in the town itself."""
        unpacked = self.feed / "agency" / name
        return unpacked if unpacked.is_file() else self.path(name)

    @cached_property
    def settings(self) -> dict[str, Any]:
        """What `desk.toml` says; nothing where it is not there. That of a day type goes before that of its town, key by key."""
        own = _settings_of(self.folder / "desk.toml")
        return _laid_over(_settings_of(self.above / "desk.toml"), own) if self.above else own

    def table(self, key: str) -> dict[str, Any]:
        """A table of `desk.toml`, empty where there is none."""
        value = self.settings.get(key)
        return value if isinstance(value, dict) else {}

    @property
    def date(self) -> datetime.date | None:
        """The date of the day that is planned, or None where `desk.toml` has none in form."""
        value = self.settings.get("date")
        return parse_date(value) if isinstance(value, str) else None

    @cached_property
    def calendars(self) -> Calendars:
        """The agency's calendars."""
        return read_calendars(self.feed)

    @cached_property
    def terminals(self) -> dict[str, str]:
        """The terminal of each stop that `terminals.csv` names."""
        if not self.has("terminals.csv"):
            return {}
        with open_records(self.path("terminals.csv")) as records:
            stop, terminal = records.column("stop_id"), records.column("terminal")
            return {fields[stop]: fields[terminal] for _, fields in records}

    @cached_property
    def deadhead_places(self) -> dict[str, int]:
        """The places that `deadheads.csv` names, each with its first record."""
        if not self.has("deadheads.csv"):
            return {}
        found: dict[str, int] = {}
        with open_records(self.path("deadheads.csv")) as records:
            ends = [records.column(name) for name in ("from", "to")]
            for number, fields in records:
                for end in ends:
                    found.setdefault(fields[end], number)
        return found

    @cached_property
    def stops(self) -> dict[str, Stop]:
        """The agency's stops by their names in `stop_id`; none where there is no `stops.txt`."""
        path = self.agency_path("stops.txt")
        return read_stops(path) if path.is_file() else {}

    def terminal(self, stop: str) -> str:
        """The terminal of a stop: that of `terminals.csv`, else one that is named as the stop."""
        return self.terminals.get(stop, stop)

    def of_post(self, place: str) -> str:
        """The terminal of a place: where vehicles are of classes it stands before the last slash."""
        return place.rpartition("/")[0] if self.table("classes") else place

    def layover(self, terminal: str) -> int:
        """The minutes that a vehicle stays at a terminal, by `desk.toml`."""
        value = self.table("layovers").get(terminal, self.settings.get("layover", 0))
        return value if type(value) is int else 0

    def selects(self) -> tuple[set[str] | None, set[str] | None]:
        """The services that `desk.toml` lists and those that run on its date; None for each that it does not name."""
        listed = self.settings.get("services")
        running = self.calendars.services_on(self.date) if self.date else None
        names = {name for name in listed if isinstance(name, str)} if isinstance(listed, list) else None
        return names, running

    def selection(self) -> Callable[[str], bool]:
        """Whether a service is selected: `desk.toml` lists it, or lists none, and it runs on the date, or there is none."""
        listed, running = self.selects()
        return lambda service: (listed is None or service in listed) and (running is None or service in running)

    def day(self) -> list[DayTrip]:
        """The selected trips, in the order of `trips.txt`, with their ends and times."""
        return self._day

    @cached_property
    def _day(self) -> list[DayTrip]:
        with open_records(self.path("stop_times.txt")) as records:
            _read_ends(records, self.selected)
        return self._with_places()

    def _with_places(self) -> list[DayTrip]:
        """The selected trips, whose ends are known, with the places of these."""
        for trip in self.selected.values():
            post = "" if trip.vehicle_class is None else f"/{trip.vehicle_class}"
            trip.start = self.terminal(trip.first_stop) + post
            trip.end = self.terminal(trip.last_stop) + post
        return list(self.selected.values())

    @cached_property
    def selected(self) -> dict[str, DayTrip]:
        """The trips that `trips.txt` has of the selected services, by their names. `day` gives them their ends and times."""
        return _select([self])[0]


def _settings_of(path: Path) -> dict[str, Any]:
    """What a `desk.toml` says; nothing where it is not there."""
    if not path.is_file():
        return {}
    try:
        return read_toml(read_text(path))
    except (ValueError, RecursionError) as error:
        raise DeskError(f"desk.toml: not TOML: {error}") from error


def _laid_over(shared: dict[str, Any], own: dict[str, Any]) -> dict[str, Any]:
    """Settings with others before them, in tables name by name."""
    tables = {key: {**shared[key], **value} for key, value in own.items() if isinstance(value, dict) and isinstance(shared.get(key), dict)}
    return {**shared, **own, **tables}


def read_together(towns: Sequence[Town]) -> None:
    """Reads the days of several day types of one town, and each file of the feed once for all of them."""
    selected = _select(towns)
    first: dict[str, DayTrip] = {}
    for trips in selected:
        for name, trip in trips.items():
            first.setdefault(name, trip)
    with open_records(towns[0].path("stop_times.txt")) as records:
        _read_ends(records, first)
    for town, trips in zip(towns, selected):
        for name, trip in trips.items():
            for end in ENDS:
                setattr(trip, end, getattr(first[name], end))
        town.selected = trips
        town._day = town._with_places()


def _select(towns: Sequence[Town]) -> list[dict[str, DayTrip]]:
    """The selected trips of each of some towns with one feed, by their names."""
    found: list[dict[str, DayTrip]] = [{} for _ in towns]
    selections = [(town.selection(), town.table("classes"), trips) for town, trips in zip(towns, found)]
    of_service: dict[str, list[tuple[dict[str, Any], dict[str, DayTrip]]]] = {}
    with open_records(towns[0].path("trips.txt")) as records:
        service, name = records.column("service_id"), records.column("trip_id")
        others = [records.find(column) for column in ("route_id", "trip_headsign", "block_id")]
        for number, fields in records:
            selecting = of_service.get(fields[service])
            if selecting is None:
                selecting = [(classes, trips) for is_selected, classes, trips in selections if is_selected(fields[service])]
                of_service[fields[service]] = selecting
            for classes, trips in selecting:
                route, headsign, block = ("" if at is None else fields[at] for at in others)
                vehicles = str(classes.get(route, "")) if classes else None
                trips[fields[name]] = DayTrip(fields[name], number, fields[service], route, headsign, block, vehicles)
    return found


def _read_ends(records: Records, trips: Mapping[str, DayTrip]) -> None:
    """Gives each trip its first and last stop with their times, from the rows of `stop_times.txt`."""
    name, arrives, departs, stop, place = (
        records.column(column) for column in ("trip_id", "arrival_time", "departure_time", "stop_id", "stop_sequence"))
    for number, fields in records:
        trip = trips.get(fields[name])
        if trip is None:
            continue
        sequence = sequence_in(records.name, number, fields[place])
        trip.rows += 1
        if sequence < trip.first_sequence:
            trip.first_sequence, trip.first_stop = sequence, fields[stop]
            trip.departure = time_in(records.name, number, fields[departs], fields[arrives])
        if sequence > trip.last_sequence:
            trip.last_sequence, trip.last_stop = sequence, fields[stop]
            trip.arrival = time_in(records.name, number, fields[arrives], fields[departs])


def sequence_in(name: str, number: int, text: str) -> int:
    """The number of a `stop_sequence`, or a DeskError that names it."""
    sequence = parse_sequence(text)
    if sequence is None:
        raise DeskError(f"{name} record {number}: bad stop_sequence")
    return sequence


def parse_sequence(text: str) -> int | None:
    """The number of a `stop_sequence`, of one to nine digits, or None where it is none."""
    digits = text.strip(" ")
    return int(digits) if 1 <= len(digits) <= 9 and digits.isascii() and digits.isdecimal() else None


def time_in(name: str, number: int, first: str, second: str) -> int | None:
    """The time of a row: the first of two fields, or where it is empty the second; None where both are."""
    text = second if is_no_time(first) else first
    if is_no_time(text):
        return None
    seconds = parse_time(text)
    if seconds is None:
        raise DeskError(f"{name} record {number}: bad time {text!r}")
    return seconds
