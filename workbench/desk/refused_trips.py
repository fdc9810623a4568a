"""The trips that the program would refuse, and an agency's files without them."""
from __future__ import annotations

from collections import Counter
from collections.abc import Callable, Iterator
from dataclasses import dataclass, field
from functools import cache
from pathlib import Path
from typing import NamedTuple

from desk.calendars import Calendars, read_calendars
from desk.errors import DeskError
from desk.records import is_blank, is_utf8, is_wide, open_records, record_text
from desk.survey import Survey

REWRITTEN = ("trips.txt", "stop_times.txt", "frequencies.txt")
"""The files with records of single trips that the program, or `new`, reads."""

CALENDARS = ("calendar.txt", "calendar_dates.txt")
"""The agency's calendars."""


class LeftOut(NamedTuple):
    """A trip that the program refuses: its record in `trips.txt`, its name and its service, and why.

    `row` is a record of `file` that it refuses. `on_any_day` says that it does so also where the trip does not run.
    """

    record: int
    trip: str
    service: str
    why: str = ""
    file: str = "trips.txt"
    row: int | None = None
    on_any_day: bool = False


@dataclass
class SortedTrips:
    """The trips of a feed: those that the program takes, with the stops at which each begins and ends, and the others.

    `strays` counts the rows of no trip for which the program would refuse the whole file. `blanks` counts for each file the records of
    commas alone, and `trailing` those with empty fields behind those of the header.
    """

    ends: dict[str, tuple[str, str]] = field(default_factory=dict)
    services: dict[str, str] = field(default_factory=dict)
    left: list[LeftOut] = field(default_factory=list)
    strays: int = 0
    blanks: Counter[str] = field(default_factory=Counter)
    trailing: Counter[str] = field(default_factory=Counter)

    @property
    def is_sound(self) -> bool:
        """Whether the program takes the files as they are."""
        return not (self.left or self.strays or self.blanks.total() or self.trailing.total())


def sort_trips(feed: Path) -> SortedTrips:
    """Looks at each trip of a feed, of whatever day. Stops that are not UTF-8 are a DeskError."""
    found = SortedTrips()
    for name in ("trips.txt", *CALENDARS):
        found.blanks[name], found.trailing[name] = _odd_records(feed / name)
    records = _trip_records(feed)
    names = {record.trip for record in records if not record.why}
    survey = Survey(feed / "stop_times.txt", names)
    found.strays, found.trailing["stop_times.txt"] = survey.strays, survey.trailing
    if not survey.is_utf8:
        raise DeskError("stop_times.txt: a stop_id is not UTF-8, and the program refuses it; ask the agency for UTF-8")
    for record in _with_twice(records, read_calendars(feed)):
        rows = survey.trips.get(record.trip)
        if record.why or rows is None:
            found.left.append(record)
        elif rows.why:
            found.left.append(record._replace(why=rows.why, file="stop_times.txt", row=rows.record, on_any_day=rows.is_wide))
        else:
            found.ends[record.trip] = rows.start[0], rows.end[0]
            found.services.setdefault(record.trip, record.service)
    return found


def write_without(feed: Path, target: Path, found: SortedTrips) -> None:
    """Writes the files of a feed that name trips or days into a folder, without the trips that are left out, strays and blanks."""
    numbers = {left.record for left in found.left}
    gone = {left.trip for left in found.left} - set(found.ends)
    for name in (*REWRITTEN, *CALENDARS):
        if (feed / name).is_file():
            _write(feed / name, target / name, numbers if name == "trips.txt" else set(), gone)


def _odd_records(path: Path) -> tuple[int, int]:
    """How many records of a file have commas alone, and how many others have empty fields behind those of the header."""
    blanks = trailing = 0
    if path.is_file():
        with open_records(path) as records:
            width = len(records.header)
            for _, fields in records:
                blanks += is_blank(fields)
                trailing += len(fields) > width and not is_wide(fields, width) and not is_blank(fields)
    return blanks, trailing


def _write(source: Path, target: Path, numbers: set[int], gone: set[str]) -> None:
    """Writes a file without the records of these numbers or trips, without blanks, and without what is behind the header's fields.

    A record of `stop_times.txt` that has more there is of a trip that goes, or of none.
    """
    with open_records(source) as records, open(target, "w", encoding="utf-8", errors="surrogateescape", newline="") as file:
        trip, width = records.find("trip_id"), len(records.header)
        file.write(record_text(records.header))
        for number, fields in records:
            name = "" if trip is None else fields[trip]
            is_stray = trip is not None and (is_wide(fields, width) or not is_utf8(name))
            if number not in numbers and name not in gone and not is_stray and not is_blank(fields):
                file.write(record_text(fields if is_wide(fields, width) else fields[:width]))


def _trip_records(feed: Path) -> list[LeftOut]:
    """The records of `trips.txt`, each with why it is refused by itself; that is empty where it is not."""
    found = []
    with open_records(feed / "trips.txt") as records:
        service, trip = records.column("service_id"), records.column("trip_id")
        width = len(records.header)
        for number, fields in records:
            if is_blank(fields):
                continue
            why, on_any_day = "", True
            if is_wide(fields, width):
                why = f"record {number} of trips.txt has {len(fields)} fields and the header {width}"
            elif not is_utf8(fields[trip] + fields[service]):
                why = "its trip_id or its service_id is not UTF-8"
            elif not fields[trip]:
                why, on_any_day = f"record {number} of trips.txt has no trip_id", False
            found.append(LeftOut(number, fields[trip], fields[service], why, row=number, on_any_day=on_any_day))
    return found


def _with_twice(records: list[LeftOut], calendars: Calendars) -> Iterator[LeftOut]:
    """The records, where one that has the name of another before it on a common day is refused for that."""
    before: dict[str, list[LeftOut]] = {}
    together = _together(calendars)
    for record in records:
        same = before.setdefault(record.trip, [])
        other = next((other for other in same if together(other.service, record.service)), None)
        if record.why or other is None:
            same += [] if record.why else [record]
            yield record
        else:
            yield record._replace(why=f"record {other.record} of trips.txt is a trip of that name too")


def _together(calendars: Calendars) -> Callable[[str, str], bool]:
    """Whether two services may run on one day. Where there are no calendars, all of them do."""
    @cache
    def found(first: str, second: str) -> bool:
        return first == second or not calendars.found or calendars.may_run_together(first, second)
    return found
