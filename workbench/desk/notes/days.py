"""Notes on the day: no trip is selected, a service selects none, or all days are planned as one."""
from __future__ import annotations

import datetime
from collections.abc import Iterator

from desk.calendars import format_date
from desk.dates import Days
from desk.errors import DeskError
from desk.hints.names import Finding, Known, advice, shown
from desk.notes.note import Note, View, note_of

DAY = datetime.timedelta(days=1)
LOOKED = 366
"""How many days on each side are looked at for a day with trips."""


def no_trips(view: View) -> Iterator[Note]:
    """That no trip is selected, and for which dates there are some."""
    if view.trips.selected:
        return
    if not view.trips.services:
        yield Note("no-trips", "trips.txt", None, "it has no trip", "Copy trips.txt from the agency's feed")
        return
    date = view.town.date
    if date is None:
        yield Note("no-trips", "desk.toml", None, "`services` selects no trip", f"List services of trips.txt: {_services(view)}")
        return
    if not view.town.calendars.found:
        yield Note("no-trips", "desk.toml", None, "it has a date, and there is no calendar.txt and no calendar_dates.txt",
                   "Copy them from the agency's feed, or list `services` in place of the date")
        return
    days = days_of(view)
    dates = [_told(days, found) for found in near_dates(days, date)]
    do = f"Write another date. Trips run on {' and on '.join(dates)}" if dates else "Ask the agency for calendars of that time"
    yield Note("no-trips", "desk.toml", None, f"no trip is selected on {format_date(date)}, a {date:%A}{_range(days)}", do)


def days_of(view: View) -> Days:
    """The numbers of trips by day, of the services that `desk.toml` lists, or of all."""
    listed, _ = view.town.selects()
    trips = {service: count for service, count in view.trips.services.items() if listed is None or service in listed}
    return Days(view.town.calendars, trips)


def near_dates(days: Days, date: datetime.date) -> list[datetime.date]:
    """The last date with trips before this one and the first one after it, where there are any."""
    if days.range is None:
        return []
    first, last = days.range
    before = _first_with_trips(days, min(date, last), -1)
    after = _first_with_trips(days, max(date, first), 1)
    return [found for found in (before, after) if found is not None]


def _first_with_trips(days: Days, begin: datetime.date, step: int) -> datetime.date | None:
    """The first date with trips from this one on, or back from it."""
    for number in range(LOOKED):
        try:
            date = begin + step * number * DAY
        except OverflowError:
            return None
        if not days.inside(date):
            return None
        if days.count(date):
            return date
    return None


def _told(days: Days, date: datetime.date) -> str:
    """A date with its day of the week and its trips."""
    return f"{format_date(date)} ({date:%A}, {days.count(date)} trips)"


def _range(days: Days) -> str:
    """From when to when the calendars go."""
    return f"; the calendars go from {format_date(days.range[0])} to {format_date(days.range[1])}" if days.range else ""


def _services(view: View) -> str:
    """The first services of `trips.txt`."""
    names = [shown(name) for name in list(view.trips.services)[:8]]
    return ", ".join(names) + (", .." if len(view.trips.services) > 8 else "")


def services(view: View) -> Iterator[Note]:
    """Each listed service that no trip has, or that does not run on the date."""
    listed = view.town.settings.get("services")
    if not isinstance(listed, list):
        return
    if not listed:
        yield Note("no-such-service", "desk.toml", None, "`services` is empty and selects no trip",
                   "List services, or take the line out")
    known, running = Known(view.trips.services), view.town.selects()[1]
    for name in dict.fromkeys(name for name in listed if isinstance(name, str)):
        if name not in known:
            other = Finding(f"no trip has the service {shown(name)}", f"The services are {_services(view)}")
            yield note_of("no-such-service", "desk.toml", None, advice(name, known) or other)
        elif running is not None and name not in running:
            date = view.town.date or datetime.date.min
            yield Note("no-service-that-day", "desk.toml", None,
                       f"the service {shown(name)} does not run on {format_date(date)}, a {date:%A}",
                       "Take it out of `services`, or write another date")


def all_days(view: View) -> Iterator[Note]:
    """That the trips of all services are planned as one day."""
    listed, running = view.town.selects()
    count = len(view.trips.services)
    if listed is not None or running is not None or count < 2:
        return
    yield Note("all-days", "desk.toml", None,
               f"it has no `date` and no `services`, so the trips of all {count} services are planned as one day",
               f"Write a date, as `date = \"{_any_date(view)}\"`, or list `services`")


def _any_date(view: View) -> str:
    """A date on which trips run, or the form of one."""
    try:
        days = days_of(view)
    except DeskError:
        return "20260907"
    found = near_dates(days, days.range[0]) if days.range else []
    return format_date(found[0]) if found else "20260907"
