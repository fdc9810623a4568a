"""How many trips each day has by the agency's calendars, and which day is drafted."""
from __future__ import annotations

import datetime
from collections import Counter
from collections.abc import Mapping
from functools import cache
from pathlib import Path

from desk.calendars import Calendars
from desk.errors import DeskError
from desk.records import open_records

DAY = datetime.timedelta(days=1)
LOOKED_AHEAD = 730
"""How many days from today on are looked at for the busiest one."""
LOOKED_BACK = 28
"""How many days at the end of a range that is over are looked at."""
USUAL_SPAN = 91
"""How many days on both sides tell what is usual for a weekday."""


def today() -> datetime.date:
    """The date of today."""
    return datetime.date.today()


def trips_by_service(path: Path) -> Counter[str]:
    """How many trips of `trips.txt` each service has."""
    with open_records(path) as records:
        service = records.column("service_id")
        records.column("trip_id")
        return Counter(fields[service] for _, fields in records)


class Days:
    """The numbers of trips by day."""

    def __init__(self, calendars: Calendars, trips: Mapping[str, int]) -> None:
        self.calendars = calendars
        self.trips = trips
        self.range = calendars.range(set(trips))
        self.count = cache(self._count)

    def _count(self, date: datetime.date) -> int:
        """How many trips run on this date."""
        return sum(self.trips.get(service, 0) for service in self.calendars.services_on(date))

    def inside(self, date: datetime.date) -> bool:
        """Whether the date is in the range of the calendars."""
        return self.range is not None and self.range[0] <= date <= self.range[1]

    def usual(self, date: datetime.date) -> int:
        """The number of trips that the weekday of this date has most often, in the range near to it."""
        weeks = range(-(USUAL_SPAN // 7), USUAL_SPAN // 7 + 1)
        near = [date + 7 * week * DAY for week in weeks]
        counts = Counter(self.count(day) for day in near if self.inside(day))
        return max(counts, key=lambda count: (counts[count], count)) if counts else 0


def choose(days: Days, now: datetime.date) -> tuple[datetime.date, str]:
    """The day that is drafted, and why: the busiest weekday from today on, or of the last weeks of a range that is over."""
    if days.range is None:
        raise DeskError("no service of trips.txt runs on any day by calendar.txt and calendar_dates.txt")
    first, last = days.range
    if last >= now:
        begin, why = max(first, now), "from today on"
        last = min(last, begin + LOOKED_AHEAD * DAY)
    else:
        begin, why = max(first, last - (LOOKED_BACK - 1) * DAY), f"of the last weeks before the calendars end on {last}"
    window = [begin + number * DAY for number in range((last - begin).days + 1)]
    weekdays = [day for day in window if day.weekday() < 5 and days.count(day)]
    for of_kind, kind in ((weekdays, "weekday"), (window, "day")):
        if of_kind and max(map(days.count, of_kind)):
            return max(of_kind, key=days.count), f"the busiest {kind} {why}"
    raise DeskError(f"no trip runs on any day from {begin} to {last}: name the day with --date")


def check_date(days: Days, date: datetime.date) -> None:
    """A DeskError where no trip runs on this date."""
    if days.count(date):
        return
    between = f"; the calendars go from {days.range[0]} to {days.range[1]}" if days.range else ""
    raise DeskError(f"no trip runs on {date}{between}")


def fortnight(days: Days, date: datetime.date) -> list[str]:
    """A line for each day of two weeks around a date: how many trips it has, and what stands out."""
    around = [date + number * DAY for number in range(-7, 7)]
    width = max(len(f"{days.count(day):,}") for day in around)
    lines = []
    for day in around:
        notes = ["the day of this town"] if day == date else []
        if not days.inside(day):
            notes.append("outside the calendars")
        elif days.count(day) != days.usual(day):
            notes.append(f"{day:%A}s usually have {days.usual(day):,}")
        lines.append(f"{day:%a} {day}  {days.count(day):>{width},}" + (f"  {', '.join(notes)}" if notes else ""))
    return lines
