"""The trips of a feed for a whole period: of each trip as few records as its blocks and its times over the dates allow.

Where a trip is in one block on all its dates its record stays. Else there is a record for each block, with a service of its dates.
"""
from __future__ import annotations

import datetime
from collections.abc import Collection, Iterator, Sequence
from dataclasses import dataclass, field
from pathlib import Path

from desk.answers import tell
from desk.day import Day
from desk.extras import Extra, listed_extras
from desk.period import PlannedDay
from desk.published_feed import WRITTEN, services_of
from desk.records import open_records
from desk.rooms import room_of, scripts_of
from desk.stations import distinct
from desk.town import Town

Dates = tuple[datetime.date, ...]

Rows = list[list[str]]
"""The rows of a trip in `stop_times.txt`."""


@dataclass
class DayPlan:
    """The plan of a day type: its folder, its dates, and what the program has written of its trips.

    `blocks` has the block of each trip that runs, and `shifts` by how many minutes it is moved. `moved` has the rows of those that are.
    `extras` and `unlisted` are the extra trips that can stand in the feed, and why others cannot.
    """

    planned: PlannedDay
    day: Day
    blocks: dict[str, str] = field(default_factory=dict)
    cancelled: set[str] = field(default_factory=set)
    shifts: dict[str, int] = field(default_factory=dict)
    moved: dict[str, Rows] = field(default_factory=dict)
    extras: dict[str, Extra] = field(default_factory=dict)
    unlisted: dict[str, str] = field(default_factory=dict)

    @property
    def name(self) -> str:
        """The name of its folder."""
        return self.planned.name


@dataclass(frozen=True)
class Version:
    """A trip as it is on some of its dates: its name and service then, its block, and by how many minutes it is moved."""

    trip: str
    service: str
    block: str
    shift: int
    days: tuple[str, ...]
    dates: Dates


@dataclass(frozen=True)
class ExtraTrip:
    """An extra trip of one day type or several: its name in the feed and in the script, its service, its block, and its minutes."""

    name: str
    planned: str
    service: str
    block: str
    extra: Extra
    departs: int
    arrives: int
    days: tuple[str, ...]


@dataclass
class PeriodTrips:
    """All trips of the feed: the versions of each record of `trips.txt` that is not as it was, the extra trips, and the services that
    are new, each with its dates. A record without a version runs on no date."""

    versions: dict[int, list[Version]] = field(default_factory=dict)
    names: dict[int, str] = field(default_factory=dict)
    extras: list[ExtraTrip] = field(default_factory=list)
    services: dict[str, Dates] = field(default_factory=dict)

    def copies(self) -> Iterator[tuple[str, Version]]:
        """Each record that stands beside that of its trip, with the name of the trip."""
        for record, versions in self.versions.items():
            yield from ((self.names[record], version) for version in versions if version.trip != self.names[record])

    def names_on(self, day: str) -> dict[str, str]:
        """The trips of a day type that are named otherwise in the feed, with their names there."""
        extras = {extra.planned: extra.name for extra in self.extras if day in extra.days and extra.planned != extra.name}
        return {name: version.trip for name, version in self.copies() if day in version.days} | extras


def day_plan(planned: PlannedDay, day: Day) -> DayPlan:
    """The plan of a day type, with the rows that the program writes of moved trips."""
    made = DayPlan(planned, day)
    made.extras, made.unlisted = listed_extras(day)
    rides = {ride.name: (block.name, ride.shift) for block in day.blocks for ride in block.rides if ride.trip}
    made.blocks = {name: block for name, (block, _) in rides.items()}
    made.shifts = {name: shift for name, (_, shift) in rides.items()}
    made.cancelled = {name for name, trip in day.published.items() if trip.trip and name not in rides}
    moved = [name for name, shift in made.shifts.items() if shift]
    if moved:
        with room_of(day.town, scripts_of(day.town)) as room:
            tell("write", day.town.folder, room)
            made.moved = _rows_of(room / WRITTEN["stop_times.txt"], moved)
    return made


def _rows_of(path: Path, names: Collection[str]) -> dict[str, Rows]:
    """The rows of these trips."""
    found: dict[str, Rows] = {name: [] for name in names}
    with open_records(path) as records:
        trip = records.column("trip_id")
        for _, fields in records:
            if fields[trip] in found:
                found[fields[trip]].append(fields)
    return found


def period_trips(town: Town, plans: Sequence[DayPlan]) -> PeriodTrips:
    """The trips of the feed, where each date has the trips and the blocks of its day type."""
    made = PeriodTrips()
    services = _Services(town, plans, made)
    taken: set[str] = set()
    records_of: dict[str, int] = {}
    with open_records(town.path("trips.txt")) as records:
        trip, service = records.column("trip_id"), records.column("service_id")
        fields_of = {number: (fields[trip], fields[service]) for number, fields in records}
    for name, _ in fields_of.values():
        taken.add(name)
        records_of[name] = records_of.get(name, 0) + 1
    listed, _ = town.selects()
    for number, (name, service_id) in fields_of.items():
        days = [plan for plan in plans if (name in plan.blocks or name in plan.cancelled) and services.dates(service_id, [plan])]
        if days and (listed is None or service_id in listed):
            made.names[number] = name
            made.versions[number] = _versions(name, service_id, days, services, records_of[name] == 1, taken)
    _add_extras(plans, made, services, taken)
    return made


def _versions(name: str, service: str, days: Sequence[DayPlan], services: _Services, is_alone: bool, taken: set[str]) -> list[Version]:
    """The versions of a record: one for each block and shift that its trip has. That of most dates keeps the name."""
    groups: dict[tuple[str, int], list[DayPlan]] = {}
    for plan in days:
        if name in plan.blocks:
            groups.setdefault((plan.blocks[name], plan.shifts[name]), []).append(plan)
    made = []
    order = sorted(groups.items(), key=lambda group: -len(services.dates(service, group[1])))
    for at, ((block, shift), plans) in enumerate(order):
        own = name
        if at or (shift and not is_alone):
            own = distinct(f"{name}@{plans[0].name}", "copy", lambda other: other in taken)
            taken.add(own)
        made.append(Version(own, services.of(service, plans), block, shift, tuple(plan.name for plan in plans),
                            services.dates(service, plans)))
    return made


def _add_extras(plans: Sequence[DayPlan], made: PeriodTrips, services: _Services, taken: set[str]) -> None:
    """Adds the extra trips. One that several day types have with one block and at the same minutes is one trip."""
    groups: dict[tuple[str, Extra, str, int, int], list[DayPlan]] = {}
    for plan in plans:
        for block in plan.day.blocks:
            for ride in block.rides:
                if ride.trip is None and ride.name in plan.extras:
                    key = ride.name, plan.extras[ride.name], block.name, ride.departs, ride.arrives
                    groups.setdefault(key, []).append(plan)
    for (name, extra, block, departs, arrives), days in groups.items():
        own = name if name not in taken else distinct(f"{name}@{days[0].name}", "copy", lambda other: other in taken)
        taken.add(own)
        made.extras.append(ExtraTrip(own, name, services.of("extra", days, is_new=True), block, extra, departs, arrives,
                                     tuple(plan.name for plan in days)))


class _Services:
    """The services of the feed: those that are there, and a new one for each service and each set of day types that needs one."""

    def __init__(self, town: Town, plans: Sequence[DayPlan], made: PeriodTrips) -> None:
        self.made = made
        self.taken = services_of(town)
        self.running = {date: town.calendars.services_on(date) for plan in plans for date in plan.planned.dates}
        self.all_dates: dict[str, set[datetime.date]] = {}
        for date, services in self.running.items():
            for service in services:
                self.all_dates.setdefault(service, set()).add(date)
        self.names: dict[tuple[str, tuple[str, ...]], str] = {}
        self.found: dict[tuple[str, tuple[str, ...]], Dates] = {}

    def dates(self, service: str, plans: Sequence[DayPlan]) -> Dates:
        """The dates of some day types on which a service runs."""
        key = service, tuple(plan.name for plan in plans)
        if key not in self.found:
            running = self.all_dates.get(service, set())
            self.found[key] = tuple(sorted(date for plan in plans for date in plan.planned.dates if date in running))
        return self.found[key]

    def of(self, service: str, plans: Sequence[DayPlan], is_new: bool = False) -> str:
        """The service of a trip on its dates in some day types, which is its own where it has no others. A new one has all their dates."""
        dates = tuple(sorted(date for plan in plans for date in plan.planned.dates)) if is_new else self.dates(service, plans)
        if not is_new and len(dates) == len(self.all_dates.get(service, ())):
            return service
        key = service, tuple(plan.name for plan in plans)
        if key not in self.names:
            more = f"+{len(plans) - 1}" if len(plans) > 1 else ""
            self.names[key] = distinct(f"{service}@{plans[0].name}{more}", "desk", lambda name: name in self.taken)
            self.taken.add(self.names[key])
            self.made.services[self.names[key]] = dates
        return self.names[key]
