"""Day types: the dates of an agency's calendars on which the same trips run, by the services that run and then by their trips."""
from __future__ import annotations

import datetime
from collections.abc import Iterator, Mapping
from dataclasses import dataclass
from pathlib import Path

from desk.calendars import Calendars
from desk.day_names import Dates, names_of
from desk.records import open_records

DAY = datetime.timedelta(days=1)

ServiceTrips = Mapping[str, frozenset[str]]
"""The names of the trips of each service."""


@dataclass(frozen=True, slots=True)
class DayType:
    """The dates of a day type, in order, the services that run on them, and how many trips. `label` is for people, `folder` is short."""

    dates: tuple[datetime.date, ...]
    services: frozenset[str]
    trips: int
    label: str = ""
    folder: str = ""

    def date_from(self, now: datetime.date) -> datetime.date:
        """The first of its dates from this one on, or where there is none the last."""
        return next((date for date in self.dates if date >= now), self.dates[-1])


@dataclass(frozen=True, slots=True)
class Period:
    """The dates of the calendars: the day types, the busiest first, and the dates without trips."""

    types: tuple[DayType, ...]
    without: tuple[datetime.date, ...]

    def type_of(self, date: datetime.date) -> DayType | None:
        """The day type of a date; None where no trip runs."""
        return next((found for found in self.types if date in found.dates), None)

    @property
    def dates(self) -> list[datetime.date]:
        """All dates from the first to the last."""
        return sorted([*self.without, *(date for found in self.types for date in found.dates)])


def trips_of_services(path: Path) -> dict[str, frozenset[str]]:
    """The trips of each service of a `trips.txt`."""
    found: dict[str, list[str]] = {}
    with open_records(path) as records:
        service, trip = records.column("service_id"), records.column("trip_id")
        for _, fields in records:
            found.setdefault(fields[service], []).append(fields[trip])
    return {name: frozenset(trips) for name, trips in found.items()}


def find_period(calendars: Calendars, trips: ServiceTrips) -> Period:
    """The day types of the calendars' dates. None is there where no service with trips runs on any date."""
    span = calendars.range(set(trips))
    by_services: dict[frozenset[str], list[datetime.date]] = {}
    for date in _dates(span):
        running = frozenset(name for name in calendars.services_on(date) if trips.get(name))
        by_services.setdefault(running, []).append(date)
    without = by_services.pop(frozenset(), [])
    types = sorted(_by_trips(by_services, trips), key=lambda found: (-found.trips, -len(found.dates), found.dates))
    names = names_of([Dates(found.dates, found.services) for found in types])
    return Period(tuple(DayType(found.dates, found.services, found.trips, label, folder)
                        for found, (label, folder) in zip(types, names)), tuple(without))


def _dates(span: tuple[datetime.date, datetime.date] | None) -> Iterator[datetime.date]:
    """Each date of a span."""
    if span:
        yield from (span[0] + number * DAY for number in range((span[1] - span[0]).days + 1))


def _by_trips(by_services: Mapping[frozenset[str], list[datetime.date]], trips: ServiceTrips) -> Iterator[DayType]:
    """A day type for each set of trips. Dates with other services and the same trips are of one."""
    by_trips: dict[tuple[int, frozenset[str]], tuple[list[datetime.date], set[str]]] = {}
    for services, dates in by_services.items():
        names = frozenset().union(*(trips[name] for name in services))
        count = sum(len(trips[name]) for name in services)
        all_dates, all_services = by_trips.setdefault((count, names), ([], set()))
        all_dates += dates
        all_services |= services
    for (count, _), (dates, services) in by_trips.items():
        yield DayType(tuple(sorted(dates)), frozenset(services), count)
