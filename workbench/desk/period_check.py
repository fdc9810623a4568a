"""The feed for a period, read again: on every date the agency's trips run, at their times and in their blocks, and these are least."""
from __future__ import annotations

import datetime
from collections import Counter
from collections.abc import Callable, Iterable, Mapping, Sequence
from concurrent.futures import ThreadPoolExecutor
from functools import cache
from pathlib import Path
from tempfile import TemporaryDirectory
from typing import NamedTuple

from desk.calendars import Calendars, read_calendars
from desk.day_types import DAY
from desk.errors import DeskError
from desk.period import TownPeriod
from desk.period_trips import DayPlan, PeriodTrips
from desk.processors import processors
from desk.published_check import as_planned, judge_blocks
from desk.records import open_records
from desk.rooms import own_room
from desk.times import parse_time
from desk.town import AGENCY_FILES
from desk.unpacking import unpack

OF_THE_PLAN = ("trip_id", "service_id", "block_id")
"""The columns of `trips.txt` in which the two feeds may differ."""

TIMES = ("arrival_time", "departure_time")

Content = tuple[tuple[tuple[str, str], ...], int]
"""What runs: the fields of a trip but its names, and a sum over its rows."""

Runs = Counter[tuple[Content, str]]
"""What runs on a date, each trip with its block."""


class Trip(NamedTuple):
    """A record of `trips.txt`: its name, its fields but its names, and its block."""

    name: str
    fields: tuple[tuple[str, str], ...]
    block: str


class Feed:
    """The trips of a feed by their services, with a sum over the rows of each: as it is, and moved by each shift that is asked for."""

    def __init__(self, folder: Path, shifts: Mapping[str, set[int]]) -> None:
        self.calendars: Calendars = read_calendars(folder)
        self.trips: dict[str, list[Trip]] = {}
        with open_records(folder / "trips.txt") as records:
            name, service = records.column("trip_id"), records.column("service_id")
            block = records.find("block_id")
            others = [(at, column) for at, column in enumerate(records.header) if column not in OF_THE_PLAN]
            for _, fields in records:
                content = tuple((column, fields[at]) for at, column in others if fields[at])
                self.trips.setdefault(fields[service], []).append(Trip(fields[name], content, "" if block is None else fields[block]))
        self.rows: dict[tuple[str, int], int] = {}
        with open_records(folder / "stop_times.txt") as records:
            name = records.column("trip_id")
            others = sorted((column, at) for at, column in enumerate(records.header) if column != "trip_id")
            for _, fields in records:
                row = [(column, fields[at]) for column, at in others if fields[at]]
                trip = fields[name]
                for shift in (0, *shifts[trip]) if trip in shifts else (0,):
                    self.rows[trip, shift] = self.rows.get((trip, shift), 0) + sum_of(row, shift)

    def content(self, trip: Trip, shift: int = 0) -> Content:
        """What runs as a trip."""
        return trip.fields, self.rows.get((trip.name, shift), 0)

    def services_on(self, date: datetime.date) -> frozenset[str]:
        """The services with trips that run on a date."""
        return frozenset(self.calendars.services_on(date) & self.trips.keys())

    @property
    def dates(self) -> set[datetime.date]:
        """All dates from the first to the last of the calendars."""
        span = self.calendars.range(set(self.trips))
        return {span[0] + number * DAY for number in range((span[1] - span[0]).days + 1)} if span else set()


def sum_of(row: Iterable[tuple[str, str]], shift: int = 0) -> int:
    """A number for the fields of a row by the order of their columns, with its times in seconds, moved by some minutes.

    Those of all rows of a trip are added. It holds in this process alone.
    """
    return hash(tuple([(column, _seconds(text) + 60 * shift) if column in TIMES and text.strip(" ") else (column, text)
                       for column, text in row]))


@cache
def _seconds(text: str) -> int:
    """The seconds of a time; 0 where it is none."""
    return parse_time(text) or 0


def judge_period(period: TownPeriod, plans: Sequence[DayPlan], trips: PeriodTrips, packed: Path) -> None:
    """A DeskError where a feed does not say on every date what the agency's says, in the blocks of the plans, or where these are not
    least."""
    with TemporaryDirectory(prefix="desk-") as name:
        folder = Path(name)
        unpack(packed, folder)
        _judge_dates(period, plans, folder)
        with ThreadPoolExecutor(processors()) as pool:
            for _ in pool.map(lambda plan: _judge_day(plan, trips, folder), plans):
                pass


def _judge_day(plan: DayPlan, trips: PeriodTrips, folder: Path) -> None:
    """Judges that `audit` says least of the blocks of a day type."""
    with own_room() as room:
        for file in AGENCY_FILES:
            if (folder / file).is_file():
                (room / file).symlink_to(folder / file)
        try:
            judge_blocks(plan.day, as_planned(plan.day, room, trips.services, trips.names_on(plan.name)), plan.unlisted)
        except DeskError as error:
            raise DeskError(f"{error} (on {plan.planned.label})") from error


def _judge_dates(period: TownPeriod, plans: Sequence[DayPlan], folder: Path) -> None:
    """Judges what runs on each date, and in which block."""
    shifts: dict[str, set[int]] = {}
    for plan in plans:
        for name, shift in plan.shifts.items():
            if shift:
                shifts.setdefault(name, set()).add(shift)
    agency, made = Feed(period.town.folder, shifts), Feed(folder, {})
    plan_of = {date: number for number, plan in enumerate(plans) for date in plan.planned.dates}
    found = cache(lambda services: _found(made, services))
    wanted = cache(lambda number, services: _wanted(agency, services, plans[number] if number is not None else None,
                                                    period.town.selects()[0]))
    differ = cache(lambda number, old, new: found(new) != wanted(number, old))
    for date in sorted(agency.dates | made.dates):
        key = plan_of.get(date), agency.services_on(date), made.services_on(date)
        if differ(*key):
            raise DeskError(f"nothing is written: {_told(date, found(key[2]), wanted(*key[:2]))}")


def _found(feed: Feed, services: Iterable[str]) -> Runs:
    """What runs in the feed that was made."""
    return Counter((feed.content(trip), trip.block) for service in services for trip in feed.trips[service])


def _wanted(agency: Feed, services: Iterable[str], plan: DayPlan | None, listed: set[str] | None) -> Runs:
    """What runs by the agency's feed and the plan of the day type: its trips, as its script leaves them, in its blocks."""
    blocks = {ride.name: block.name for block in plan.day.blocks for ride in block.rides} if plan else {}
    runs: Runs = Counter()
    for service in services:
        for trip in agency.trips[service]:
            if listed is not None and service not in listed:
                runs[agency.content(trip), trip.block] += 1
            elif plan and trip.name in blocks:
                runs[agency.content(trip, plan.shifts[trip.name]), blocks[trip.name]] += 1
            elif not plan or trip.name not in plan.cancelled:
                raise DeskError(f"nothing is written: no plan has trip {trip.name} of service {service}, which runs on its dates")
    if plan:
        runs += _extras(plan)
    return runs


def _extras(plan: DayPlan) -> Runs:
    """The extra trips of a day type that are listed."""
    runs: Runs = Counter()
    for block in plan.day.blocks:
        for ride in block.rides:
            if ride.trip is None and ride.name in plan.extras:
                extra = plan.extras[ride.name]
                fields = tuple((column, text) for column, text in (("route_id", extra.route), ("trip_headsign", extra.headsign)) if text)
                ends = (("1", extra.first_stop, ride.departs), ("2", extra.last_stop, ride.arrives))
                rows = sum(sum_of(sorted([*((column, f"{minute // 60:02}:{minute % 60:02}:00") for column in TIMES), ("stop_id", stop),
                                          ("stop_sequence", number)])) for number, stop, minute in ends)
                runs[(fields, rows), block.name] += 1
    return runs


def _told(date: datetime.date, found: Runs, wanted: Runs) -> str:
    """What differs first on a date."""
    more, less = found - wanted, wanted - found
    told: Callable[[Runs], str] = lambda runs: ", ".join(f"{column} {text}" for column, text in next(iter(runs))[0][0]) + (
        f" in block {next(iter(runs))[1] or 'none'}")
    return f"on {date} the feed has {more.total()} trips that it should not have" + (f", as {told(more)}" if more else "") + (
        f", and lacks {less.total()}" + (f", as {told(less)}" if less else ""))
