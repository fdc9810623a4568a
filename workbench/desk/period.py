"""A town with days: a folder below `days/` for each day type, and the dates of the period for which it holds."""
from __future__ import annotations

import datetime
from collections import Counter
from collections.abc import Iterable, Iterator, Sequence
from dataclasses import dataclass
from functools import cached_property
from pathlib import Path

from desk.day_names import MONTHS, WEEKDAYS
from desk.day_types import DayType, Period, ServiceTrips, find_period, trips_of_services
from desk.errors import DeskError
from desk.town import DAYS, Town

MOST_RUNS = 12
"""How many spans of dates are told of a day type."""


@dataclass(frozen=True)
class PlannedDay:
    """A folder of a day type: its short name, its town, and the day type that its date has; None where no trip runs on it."""

    name: str
    town: Town
    kind: DayType | None

    @property
    def label(self) -> str:
        """What it is called for people."""
        return self.kind.label if self.kind else self.name

    @property
    def dates(self) -> tuple[datetime.date, ...]:
        """The dates for which it holds."""
        return self.kind.dates if self.kind else ()


class TownPeriod:
    """The period of a town: its day types by the calendars, and its folders, the busiest first."""

    def __init__(self, folder: Path | str) -> None:
        self.town = Town(folder)
        if self.town.above:
            raise DeskError(f"{folder} is a day type of {self.town.above}: name that town")

    @cached_property
    def found(self) -> Period:
        """The day types of the calendars, of the services that the town lists, or of all."""
        return period_of(self.town, self.trips)

    @cached_property
    def trips(self) -> dict[str, frozenset[str]]:
        """The trips of each service."""
        return trips_of_services(self.town.path("trips.txt"))

    def trips_of(self, day: PlannedDay) -> frozenset[str]:
        """The trips of a day type, before its script."""
        listed, _ = day.town.selects()
        running = self.town.calendars.services_on(day.town.date) if day.town.date else self.trips.keys()
        return frozenset().union(*(trips for service, trips in self.trips.items()
                                   if service in running and (listed is None or service in listed)))

    @cached_property
    def days(self) -> list[PlannedDay]:
        """The folders, the busiest day type first, and last those on whose date no trip runs."""
        days = [self._planned(path) for path in day_folders(self.town.folder)]
        order = {id(kind): number for number, kind in enumerate(self.found.types)}
        return sorted(days, key=lambda day: (order.get(id(day.kind), len(order)), day.name))

    @property
    def planned(self) -> list[PlannedDay]:
        """The folders on whose date trips run."""
        return [day for day in self.days if day.kind]

    def _planned(self, path: Path) -> PlannedDay:
        """The day of a folder. An error in its settings is a DeskError that names it."""
        town = Town(path)
        try:
            date = town.date
        except DeskError as error:
            raise DeskError(f"{DAYS}/{path.name}/{error}") from error
        return PlannedDay(path.name, town, self.found.type_of(date) if date else None)

    @property
    def missing(self) -> list[DayType]:
        """The day types that no folder plans."""
        planned = {id(day.kind) for day in self.days}
        return [kind for kind in self.found.types if id(kind) not in planned]

    def troubles(self) -> Iterator[str]:
        """What keeps the folders from being one for each day type."""
        first: dict[int, str] = {}
        for day in self.days:
            if day.kind is None:
                yield f"{DAYS}/{day.name}: no trip runs on its date, {day.town.date or 'which desk.toml does not have'}"
            elif first.setdefault(id(day.kind), day.name) != day.name:
                yield f"{DAYS}/{day.name}: it is of the same day type as {DAYS}/{first[id(day.kind)]}: take one of them away"
        for kind in self.missing:
            yield f"{kind.label}: no folder of {DAYS}/ plans {'its date' if len(kind.dates) == 1 else f'its {len(kind.dates)} dates'}"


def period_of(town: Town, trips: ServiceTrips | None = None) -> Period:
    """The day types of a town's calendars, with its trips where they are read already. A DeskError where there are none."""
    if not town.calendars.found:
        raise DeskError(f"{town.folder} has no calendar.txt and no calendar_dates.txt, so it has no dates")
    trips, (listed, _) = trips_of_services(town.path("trips.txt")) if trips is None else trips, town.selects()
    found = find_period(town.calendars, {name: of for name, of in trips.items() if listed is None or name in listed})
    if not found.types:
        raise DeskError("no trip runs on any date of calendar.txt and calendar_dates.txt")
    return found


def has_days(folder: Path) -> bool:
    """Whether a town has folders of day types."""
    return bool(day_folders(folder))


def day_folders(folder: Path) -> list[Path]:
    """The folders of the day types of a town."""
    days = folder / DAYS
    return sorted(path for path in days.iterdir() if (path / "desk.toml").is_file()) if days.is_dir() else []


def spans(dates: Sequence[datetime.date], every: Iterable[datetime.date]) -> list[tuple[datetime.date, datetime.date]]:
    """The dates as spans, each from its first date to its last.

    A span has all dates of the weekdays that are mostly of this kind. Dates of other weekdays stand alone.
    """
    of_type, every = set(dates), list(every)
    counts = Counter(date.weekday() for date in every)
    weekdays = {day for day, count in Counter(date.weekday() for date in dates).items() if 2 * count > counts[day]}
    found = [(date, date) for date in dates if date.weekday() not in weekdays]
    begin = last = None
    for date in (date for date in every if date.weekday() in weekdays):
        if date in of_type:
            begin, last = begin or date, date
        elif begin and last:
            found.append((begin, last))
            begin = last = None
    return sorted([*found, (begin, last)] if begin and last else found)


def spans_text(dates: Sequence[datetime.date], every: Iterable[datetime.date]) -> str:
    """The dates in words, `Mon 7 September 2026 to Fri 23 October 2026`."""
    runs = spans(dates, every)
    told = [_told(first) if first == last else f"{_told(first)} to {_told(last)}" for first, last in runs[:MOST_RUNS]]
    return "; ".join(told) + (f"; and {len(runs) - MOST_RUNS} more spans" if len(runs) > MOST_RUNS else "")


def _told(date: datetime.date) -> str:
    """A date with its day of the week."""
    return f"{WEEKDAYS[date.weekday()][:3]} {date.day} {MONTHS[date.month - 1][:3]} {date.year}"
