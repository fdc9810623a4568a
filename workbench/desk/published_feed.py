"""The feed that is handed over: the agency's files, with the blocks and the times of a plan."""
from __future__ import annotations

import datetime
from collections import Counter
from collections.abc import Iterable, Mapping, Sequence
from dataclasses import dataclass, field
from pathlib import Path

from desk.answers import tell
from desk.calendars import format_date
from desk.day import Day
from desk.extras import Extra, listed_extras
from desk.hints.files import GTFS
from desk.plans import Ride
from desk.records import open_records, record_text
from desk.records import row_text as _row
from desk.stations import distinct
from desk.times import format_time
from desk.town import AGENCY_FILES, Town

WRITTEN = {"trips.txt": "trips_blocks.txt", "stop_times.txt": "stop_times_blocks.txt"}
"""The agency's files that `write` writes, each under another name."""

OF_TRIPS = {"frequencies.txt": ("trip_id",), "transfers.txt": ("from_trip_id", "to_trip_id")}
"""The agency's other files that name trips, with the columns that do."""


@dataclass
class Handover:
    """What is handed over beside the files: the extra trips with what stands for them, and what is left out.

    `unlisted` has a reason for each extra trip that is left out. `dropped` counts the records of files that name trips which are
    not there.
    """

    service: str
    extras: dict[str, Extra] = field(default_factory=dict)
    unlisted: dict[str, str] = field(default_factory=dict)
    cancelled: list[str] = field(default_factory=list)
    dropped: Counter[str] = field(default_factory=Counter)


def make_feed(day: Day, room: Path, target: Path) -> Handover:
    """Makes the files in a folder, of a plan and in a room with the town's feed and script. A DeskError where they cannot be made."""
    town = day.town
    tell("write", town.folder, room)
    rides = _rides(day)
    made = Handover(_free_service(town), cancelled=[name for name, trip in day.published.items() if trip.trip and name not in rides])
    made.extras, made.unlisted = listed_extras(day)
    for name, path in sorted(agency_files(town).items()):
        if name not in (*WRITTEN, *OF_TRIPS):
            (target / name).symlink_to(path.resolve())
    trips = _write_trips(day, room / WRITTEN["trips.txt"], target / "trips.txt", made)
    _write_times(day, room / WRITTEN["stop_times.txt"], target / "stop_times.txt", trips, made)
    for name, columns in OF_TRIPS.items():
        if name in agency_files(town):
            _write_named(agency_files(town)[name], target / name, columns, trips, made)
    if made.extras:
        add_services(target / "calendar_dates.txt", {made.service: [town.date] if town.date else []})
    return made


def agency_files(town: Town) -> dict[str, Path]:
    """The agency's files: those in `agency/`, or of a town without that its own, and the calendars as the program reads them."""
    agency = town.feed / "agency"
    files = {path.name: path for path in (agency if agency.is_dir() else town.feed).iterdir() if path.is_file()}
    others = {name: path for name, path in files.items() if agency.is_dir() or name in GTFS}
    read = {name: town.path(name) for name in AGENCY_FILES if town.has(name)}
    return {name: path for name, path in others.items() if name not in AGENCY_FILES} | read


def _rides(day: Day) -> dict[str, Ride]:
    """The rides of a plan by their trips."""
    return {ride.name: ride for block in day.blocks for ride in block.rides}


def _free_service(town: Town) -> str:
    """The name of a service that no other has, for the extra trips of the date."""
    taken = services_of(town)
    return distinct(f"extra-{format_date(town.date)}" if town.date else "extra", "desk", lambda name: name in taken)


def services_of(town: Town) -> set[str]:
    """All services of a feed, of its trips and of its calendars."""
    with open_records(town.path("trips.txt")) as records:
        at = records.column("service_id")
        return {fields[at] for _, fields in records} | town.calendars.services()


def _write_trips(day: Day, source: Path, target: Path, made: Handover) -> set[str]:
    """Writes `trips.txt` without the cancelled trips and with the extra ones, and gives the names of all."""
    names, cancelled = set(made.extras), set(made.cancelled)
    selected = {trip.trip.record for trip in day.published.values() if trip.trip}
    with open_records(source) as records, open(target, "w", encoding="utf-8", errors="surrogateescape", newline="") as file:
        at = records.column("trip_id")
        file.write(record_text(records.header))
        for number, fields in records:
            if number not in selected or fields[at] not in cancelled:
                names.add(fields[at])
                file.write(record_text(fields))
        blocks = {ride.name: block.name for block in day.blocks for ride in block.rides}
        for name, extra in made.extras.items():
            file.write(_row(records.header, {"route_id": extra.route, "service_id": made.service, "trip_id": name,
                                             "trip_headsign": extra.headsign, "block_id": blocks[name]}))
    return names


def _write_times(day: Day, source: Path, target: Path, trips: set[str], made: Handover) -> None:
    """Writes `stop_times.txt` without the rows of the cancelled trips and with two for each extra trip."""
    cancelled, rides = set(made.cancelled) - trips, _rides(day)
    with open_records(source) as records, open(target, "w", encoding="utf-8", errors="surrogateescape", newline="") as file:
        at = records.column("trip_id")
        file.write(record_text(records.header))
        for _, fields in records:
            if fields[at] not in cancelled:
                file.write(record_text(fields))
        for name, extra in made.extras.items():
            ends = (extra.first_stop, rides[name].departs), (extra.last_stop, rides[name].arrives)
            for sequence, (stop, minute) in enumerate(ends, 1):
                time = format_time(60 * minute)
                file.write(_row(records.header, {"trip_id": name, "arrival_time": time, "departure_time": time, "stop_id": stop,
                                                 "stop_sequence": str(sequence)}))


def _write_named(source: Path, target: Path, columns: tuple[str, ...], trips: set[str], made: Handover) -> None:
    """Writes a file without the records that name a trip which is not there; a file of no records is left out."""
    kept = 0
    with open_records(source) as records, open(target, "w", encoding="utf-8", errors="surrogateescape", newline="") as file:
        places = [place for column in columns if (place := records.find(column)) is not None]
        file.write(record_text(records.header))
        for _, fields in records:
            if all(fields[place] in trips or not fields[place] for place in places):
                file.write(record_text(fields))
                kept += 1
            else:
                made.dropped[source.name] += 1
    if not kept:
        target.unlink()


def add_services(path: Path, services: Mapping[str, Iterable[datetime.date]]) -> None:
    """Adds services, each on its dates, to `calendar_dates.txt`, which is made where it is not there."""
    header: Sequence[str] = ("service_id", "date", "exception_type")
    text = record_text(header)
    if path.exists():
        with open_records(path) as records:
            text, header = record_text(records.header) + "".join(record_text(fields) for _, fields in records), records.header
        path.unlink()
    text += "".join(_row(header, {"service_id": service, "date": format_date(date), "exception_type": "1"})
                    for service, dates in services.items() for date in dates)
    path.write_text(text, encoding="utf-8", errors="surrogateescape", newline="")
