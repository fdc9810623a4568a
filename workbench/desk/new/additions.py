"""`./desk new --more`: what a new date or a new feed needs is added behind a planner's records, which stay as they are."""
from __future__ import annotations

import datetime
import re
from collections.abc import Mapping, Sequence
from dataclasses import replace

from desk.calendars import format_date
from desk.counts import counted, some
from desk.dates import Days, check_date, trips_by_service
from desk.deadheads import Depot, Pace, draft_pulls, draft_ways, find_depot, readable
from desk.files import read_bytes, write_whole
from desk.limits import MOST_PLACES
from desk.new.days import NewDays
from desk.new.pairs import chosen_pairs
from desk.new.report import Report
from desk.new.settings import with_key
from desk.new.steps import all_ends, draft_settings
from desk.notes.deadheads import read_ways
from desk.pair_rules import COLUMNS, FILE, KEEP, read_rules
from desk.records import first_records, record_text, with_rows
from desk.refused_trips import SortedTrips
from desk.stations import Terminal, distinct, draft_terminals
from desk.town import Town

Record = Mapping[str, str]
"""A record by its columns."""


def keep_settings(own: Town, room: Path, asked: datetime.date | None, report: Report) -> Town:
    """The town in the room, with the planner's `desk.toml`. With a date that is asked its line says that one."""
    town = Town(room)
    if not own.has("desk.toml"):
        settings = {"date": format_date(asked)} if asked else {}
        draft_settings(Town(room, settings), asked, [], report)
        return town
    text = read_bytes(own.path("desk.toml"))
    write_whole(town.path("desk.toml"), with_date(text, asked) if asked else text)
    report.draft("desk.toml", f"as it was, with the date {asked}" if asked else "as it was")
    return town


def with_date(text: bytes, date: datetime.date) -> bytes:
    """The text of a `desk.toml` with another date, which the comment of a draft above it names too."""
    text = re.sub(rb"(?m)^(# The day that is planned, a )\w+day\b", rb"\g<1>" + f"{date:%A}".encode(), text, count=1)
    return with_key(text, "date", format_date(date))


def judge_day(town: Town, report: Report) -> None:
    """Tells where no trip runs on the date of the town. With a date that is asked it is a DeskError."""
    if town.date is None or not town.calendars.found:
        return
    days = Days(town.calendars, trips_by_service(town.path("trips.txt")))
    if not days.count(town.date):
        span = f"; the calendars go from {days.range[0]} to {days.range[1]}" if days.range else ""
        report.mend("desk.toml", f"no trip runs on {town.date}{span}: choose another day with --date")


def check_asked(town: Town, asked: datetime.date) -> None:
    """A DeskError where no trip runs on a date that is asked."""
    check_date(Days(town.calendars, trips_by_service(town.path("trips.txt"))), asked)


def add_places(own: Town, town: Town, trips: SortedTrips, report: Report) -> list[Terminal]:
    """Adds the stops that `terminals.csv` lacks. Gives all terminals, by the names that the planner has given them."""
    known, drafted = own.terminals, draft_terminals(all_ends(town, trips), town.stops)
    taken = {*known.values(), *town.stops}
    found: dict[str, Terminal] = {}
    rows = []
    for terminal in drafted:
        names = list(dict.fromkeys(known[stop] for stop in terminal.stops if stop in known))
        fresh = [stop for stop in terminal.stops if stop not in known]
        if not names:
            names = [distinct(terminal.name, terminal.key, lambda name, own=fresh: name in taken and name not in own)]
            taken.add(names[0])
        rows += [{"stop_id": stop, "terminal": names[0]} for stop in fresh]
        for name in names:
            found.setdefault(name, replace(terminal, name=name))
    if town.stops:
        _append(own, town, "terminals.csv", ("stop_id", "terminal"), rows, report)
    return list(found.values())


def add_running(own: Town, town: Town, terminals: Sequence[Terminal], asked: str | None, pace: Pace, report: Report) -> None:
    """Adds the ways of places that `deadheads.csv` does not name, and the pulls of terminals that `depot.csv` does not name."""
    depot = find_depot(asked, terminals, town.stops) if asked is not None else None
    ways = read_ways(own.path("deadheads.csv"))
    named = {name for way in ways for name in (way.start, way.end)}
    if len(named.union(terminal.name for terminal in terminals)) > MOST_PLACES:
        report.mend("deadheads.csv", f"nothing is added, since with all terminals it has more than {MOST_PLACES} places")
    else:
        fresh = [way for way in readable(draft_ways(terminals, depot, pace)) if way.start not in named or way.end not in named]
        rows = [{"from": way.start, "to": way.end, "minutes": str(way.minutes)} for way in fresh]
        _append(own, town, "deadheads.csv", ("from", "to", "minutes"), rows, report)
    _add_pulls(own, town, terminals, depot, pace, report)


def _add_pulls(own: Town, town: Town, terminals: Sequence[Terminal], depot: Depot | None, pace: Pace, report: Report) -> None:
    """Adds the pulls that `depot.csv` lacks, where it is known where the depot is."""
    listed = first_records(own.path("depot.csv"), "terminal")
    if depot:
        pulls = [way for way in readable(draft_pulls(terminals, depot, pace)) if way.end not in listed]
        rows = [{"terminal": way.end, "pull_out": str(way.minutes), "pull_in": str(way.minutes)} for way in pulls]
        _append(own, town, "depot.csv", ("terminal", "pull_out", "pull_in"), rows, report)
    missing = [terminal.name for terminal in terminals if terminal.name not in listed]
    if own.has("depot.csv") and missing and not depot:
        report.mend("depot.csv", f"{counted(len(missing), 'terminal')} without a record: {some(missing)}. Say by --depot where the depot "
                    "is, or write them.")


def add_pairs(own: Town, town: Town, days: NewDays | None, report: Report) -> None:
    """Adds the linked pairs that `pairs.csv` lacks, where its rules leave their trips free."""
    rows = [dict(zip(COLUMNS, (*pair, KEEP))) for pair in chosen_pairs(town, days, report, read_rules(own))]
    _append(own, town, FILE, COLUMNS, rows, report)


def _append(own: Town, town: Town, name: str, columns: Sequence[str], rows: Sequence[Record], report: Report) -> None:
    """Writes a planner's file with records behind its own, or a new file where there is none."""
    if own.has(name):
        write_whole(town.path(name), with_rows(read_bytes(own.path(name)), rows))
        report.draft(name, f"{counted(len(rows), 'record')} added behind those that were there" if rows else "as it was")
    elif rows:
        write_whole(town.path(name), record_text(columns) + "".join(record_text([row[column] for column in columns]) for row in rows))
        report.draft(name, f"{counted(len(rows), 'record')}, drafted")
