"""The feed for a whole period: the agency's files, with the blocks of each day type on its dates."""
from __future__ import annotations

import datetime
from collections import Counter
from collections.abc import Iterator, Mapping, Sequence
from itertools import product
from pathlib import Path
from typing import TextIO

from desk.period_trips import DayPlan, ExtraTrip, PeriodTrips, Version
from desk.published_feed import OF_TRIPS, WRITTEN, add_services, agency_files
from desk.records import open_records, record_text, row_text
from desk.times import format_time
from desk.town import Town

NAMING = {**OF_TRIPS, "attributions.txt": ("trip_id",), "translations.txt": ("record_id",)}
"""The agency's other files that name trips, with the columns that do. A record is repeated for each copy of its trip."""

OF_TABLES = ("trips", "stop_times")
"""The tables of `translations.txt` whose records are named by trips."""

Names = Mapping[str, Sequence[tuple[str, "frozenset[datetime.date] | None"]]]
"""The names in the feed of each trip, each with its dates, or with None for all of the trip's own."""


def make_period_feed(town: Town, plans: Sequence[DayPlan], trips: PeriodTrips, target: Path) -> Counter[str]:
    """Makes the files in a folder, and gives how many records were left out of those that name trips which are not there."""
    files = agency_files(town)
    for name, path in sorted(files.items()):
        if name not in (*WRITTEN, *NAMING):
            (target / name).symlink_to(path.resolve())
    names = _write_trips(town, trips, target / "trips.txt")
    _write_times(town, plans, trips, target / "stop_times.txt")
    dropped: Counter[str] = Counter()
    for name, columns in NAMING.items():
        if name in files:
            _write_named(files[name], target / name, columns, names, dropped)
    if trips.services:
        add_services(target / "calendar_dates.txt", trips.services)
    return +dropped


def _new_file(path: Path) -> TextIO:
    """A file to write records into."""
    return open(path, "w", encoding="utf-8", errors="surrogateescape", newline="")


def _write_trips(town: Town, trips: PeriodTrips, target: Path) -> Names:
    """Writes `trips.txt`, and gives the names of all trips in it."""
    names: dict[str, list[tuple[str, frozenset[datetime.date] | None]]] = {}
    with open_records(town.path("trips.txt")) as records, _new_file(target) as file:
        header = records.header if "block_id" in records.header else [*records.header, "block_id"]
        places = [header.index(column) for column in ("trip_id", "service_id", "block_id")]
        file.write(record_text(header))
        for number, fields in records:
            fields += [""] * (len(header) - len(fields))
            name = fields[places[0]]
            if number not in trips.versions:
                file.write(record_text(fields))
                names.setdefault(name, []).append((name, None))
                continue
            for version in trips.versions[number]:
                for place, text in zip(places, (version.trip, version.service, version.block)):
                    fields[place] = text
                file.write(record_text(fields))
                names.setdefault(name, []).append((version.trip, frozenset(version.dates)))
        for extra in trips.extras:
            file.write(row_text(header, {"route_id": extra.extra.route, "service_id": extra.service, "trip_id": extra.name,
                                         "trip_headsign": extra.extra.headsign, "block_id": extra.block}))
            names.setdefault(extra.name, []).append((extra.name, None))
    return names


def _write_times(town: Town, plans: Sequence[DayPlan], trips: PeriodTrips, target: Path) -> None:
    """Writes `stop_times.txt`: the rows of trips as they were, behind them those of copies and of moved trips, and of the extra ones."""
    own, others = _versions_by_name(trips)
    rows: dict[str, list[list[str]]] = {name: [] for name in others}
    with open_records(town.path("stop_times.txt")) as records, _new_file(target) as file:
        trip = records.column("trip_id")
        file.write(record_text(records.header))
        for _, fields in records:
            if own.get(fields[trip], True):
                file.write(record_text(fields))
            if fields[trip] in rows:
                rows[fields[trip]].append(fields)
        for name, versions in others.items():
            for version in versions:
                for fields in _moved_rows(name, version, plans) if version.shift else rows[name]:
                    file.write(record_text([*fields[:trip], version.trip, *fields[trip + 1:]]))
        for extra in trips.extras:
            file.write("".join(row_text(records.header, row) for row in _extra_rows(extra)))


def _versions_by_name(trips: PeriodTrips) -> tuple[dict[str, bool], dict[str, list[Version]]]:
    """Of each trip whether it stands there as it was, and the versions of it that are copies, or moved."""
    own: dict[str, bool] = {}
    others: dict[str, list[Version]] = {}
    for record, versions in trips.versions.items():
        name = trips.names[record]
        own[name] = own.get(name, False) or any(version.trip == name and not version.shift for version in versions)
        more = [version for version in versions if version.trip != name or version.shift]
        if more:
            others.setdefault(name, []).extend(more)
    return own, others


def _moved_rows(name: str, version: Version, plans: Sequence[DayPlan]) -> list[list[str]]:
    """The rows of a moved trip, as the program writes them for the first of its day types."""
    plan = next(plan for plan in plans if plan.name == version.days[0])
    return plan.moved[name]


def _extra_rows(extra: ExtraTrip) -> Iterator[dict[str, str]]:
    """The two rows of an extra trip."""
    ends = (extra.extra.first_stop, extra.departs), (extra.extra.last_stop, extra.arrives)
    for sequence, (stop, minute) in enumerate(ends, 1):
        time = format_time(60 * minute)
        yield {"trip_id": extra.name, "arrival_time": time, "departure_time": time, "stop_id": stop, "stop_sequence": str(sequence)}


def _write_named(source: Path, target: Path, columns: tuple[str, ...], names: Names, dropped: Counter[str]) -> None:
    """Writes a file with each record for all copies of the trips that it names, and without those of trips that are not there.

    Of two trips in a record only copies with a common date stand together. A file of no records is left out.
    """
    kept = 0
    with open_records(source) as records, _new_file(target) as file:
        places = [place for column in columns if (place := records.find(column)) is not None]
        table = records.find("table_name")
        file.write(record_text(records.header))
        for _, fields in records:
            is_of_trips = table is None or fields[table] in OF_TABLES
            ways = list(_ways(fields, places, names)) if is_of_trips else [fields]
            file.write("".join(map(record_text, ways)))
            kept += len(ways)
            dropped[source.name] += not ways
    if not kept:
        target.unlink()


def _ways(fields: list[str], places: Sequence[int], names: Names) -> Iterator[list[str]]:
    """A record with the names in the feed for the trips that it names."""
    choices = [names.get(fields[place], ()) if fields[place] else (("", None),) for place in places]
    for chosen in product(*choices):
        dates = [on for _, on in chosen if on is not None]
        if not dates or frozenset.intersection(*dates):
            way = fields.copy()
            for place, (name, _) in zip(places, chosen):
                way[place] = name
            yield way
