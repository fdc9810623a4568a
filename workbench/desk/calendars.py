"""Which services run on which date, by `calendar.txt` and `calendar_dates.txt`."""
from __future__ import annotations

import datetime
from dataclasses import dataclass, field
from pathlib import Path

from desk.errors import DeskError
from desk.records import is_blank, open_records

WEEKDAYS = ("monday", "tuesday", "wednesday", "thursday", "friday", "saturday", "sunday")
"""The columns of `calendar.txt` for the days of a week, in the order of `date.weekday()`."""


def parse_date(text: str) -> datetime.date | None:
    """The date of eight digits with any spaces round them; None where the text has another form or there is no such date."""
    digits = text.strip(" ")
    if len(digits) != 8 or not (digits.isascii() and digits.isdecimal()):
        return None
    try:
        return datetime.date(int(digits[:4]), int(digits[4:6]), int(digits[6:]))
    except ValueError:
        return None


def format_date(date: datetime.date) -> str:
    """A date as `desk.toml` has it, `20260907`."""
    return f"{date.year:04}{date.month:02}{date.day:02}"


@dataclass(frozen=True, slots=True)
class Span:
    """A record of `calendar.txt`: the weekdays of a service between two dates, both included."""

    weekdays: frozenset[int]
    first: datetime.date
    last: datetime.date

    def runs_on(self, date: datetime.date) -> bool:
        """Whether the record says that its service runs on this date."""
        return self.first <= date <= self.last and date.weekday() in self.weekdays

    def meets(self, other: Span) -> bool:
        """Whether both records have a common day."""
        begin, last = max(self.first, other.first), min(self.last, other.last)
        days = range(min(7, (last - begin).days + 1))
        return any((begin.weekday() + day) % 7 in self.weekdays & other.weekdays for day in days)


@dataclass
class Calendars:
    """Both calendars of a feed. Where neither is there, `found` is false and no service runs on any date."""

    spans: dict[str, Span] = field(default_factory=dict)
    added: dict[datetime.date, set[str]] = field(default_factory=dict)
    removed: dict[datetime.date, set[str]] = field(default_factory=dict)
    found: bool = False

    def services_on(self, date: datetime.date) -> set[str]:
        """The services that run on this date."""
        usual = {service for service, span in self.spans.items() if span.runs_on(date)}
        return usual - self.removed.get(date, set()) | self.added.get(date, set())

    def may_run_together(self, first: str, second: str) -> bool:
        """Whether two services have a common day, where exceptions that take days away are not counted."""
        one, other = self.spans.get(first), self.spans.get(second)
        if one is not None and other is not None and one.meets(other):
            return True
        return any({first, second} <= self.services_on(date) for date in (*self.added, *self.removed))

    def services(self) -> set[str]:
        """All services that the calendars name."""
        return set(self.spans).union(*self.added.values(), *self.removed.values())

    def range(self, services: set[str] | None = None) -> tuple[datetime.date, datetime.date] | None:
        """The first and the last date on which one of these services may run, or any; None where there is none."""
        spans = [span for service, span in self.spans.items() if services is None or service in services]
        spans = [span for span in spans if span.weekdays and span.first <= span.last]
        added = [date for date, names in self.added.items() if services is None or names & services]
        dates = [span.first for span in spans] + [span.last for span in spans] + added
        return (min(dates), max(dates)) if dates else None


def read_calendars(folder: Path) -> Calendars:
    """The calendars of a folder. Either or both may be missing."""
    calendars = Calendars()
    if (folder / "calendar.txt").is_file():
        calendars.found = True
        _read_spans(folder / "calendar.txt", calendars)
    if (folder / "calendar_dates.txt").is_file():
        calendars.found = True
        _read_exceptions(folder / "calendar_dates.txt", calendars)
    return calendars


def _read_spans(path: Path, calendars: Calendars) -> None:
    """Reads `calendar.txt`."""
    with open_records(path) as records:
        service = records.column("service_id")
        days = [records.column(name) for name in WEEKDAYS]
        ends = records.column("start_date"), records.column("end_date")
        for number, fields in records:
            if is_blank(fields):
                continue
            weekdays = frozenset(day for day, at in enumerate(days) if fields[at].strip(" ") == "1")
            first, last = (_date_in(path.name, number, records.header[at], fields[at]) for at in ends)
            calendars.spans[fields[service]] = Span(weekdays, first, last)


def _read_exceptions(path: Path, calendars: Calendars) -> None:
    """Reads `calendar_dates.txt`."""
    with open_records(path) as records:
        service, on, kind = (records.column(name) for name in ("service_id", "date", "exception_type"))
        for number, fields in records:
            if is_blank(fields):
                continue
            date = _date_in(path.name, number, "date", fields[on])
            if fields[kind].strip(" ") not in ("1", "2"):
                raise DeskError(f"{path.name} record {number}: bad exception_type")
            of_kind = calendars.added if fields[kind].strip(" ") == "1" else calendars.removed
            of_kind.setdefault(date, set()).add(fields[service])


def _date_in(name: str, number: int, column: str, text: str) -> datetime.date:
    """The date of a field, or a DeskError that names it."""
    date = parse_date(text)
    if date is None:
        raise DeskError(f"{name} record {number}: bad {column}")
    return date
