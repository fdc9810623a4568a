"""The steps of `./desk new`: each makes files in the room of the town, and says in the report what they were made from."""
from __future__ import annotations

import datetime
import shutil
from collections.abc import Sequence
from pathlib import Path

from desk.calendars import read_calendars
from desk.counts import MOST_NAMED, counted, some
from desk.dates import Days, check_date, choose, fortnight, today, trips_by_service
from desk.deadheads import Depot, Pace, Way, draft_pulls, draft_ways, pulls_text, readable, ways_text
from desk.errors import DeskError
from desk.files import write_whole
from desk.frequencies import Repeats, expand
from desk.limits import MOST_BYTES, MOST_EMPTY_MINUTES, MOST_PLACES, MOST_TRIPS
from desk.new.layovers import layovers_of_today
from desk.new.report import Report
from desk.new.settings import LAYOVER, settings_text
from desk.new.sound_feed import sound_feed, tell_left_out
from desk.parts import proposals
from desk.refused_trips import SortedTrips, sort_trips
from desk.stations import NEAR, Terminal, draft_terminals, far_terminals, terminals_text
from desk.town import AGENCY_FILES, Town
from desk.unpacking import unpack


def unpack_feed(feed: Path, room: Path, report: Report) -> SortedTrips:
    """Copies the agency's files into `agency/`, and beside it those that the program reads, without trips that it would refuse.

    Trips that `frequencies.txt` repeats are written out beside it. Gives all trips of the agency.
    """
    agency = room / "agency"
    agency.mkdir()
    names = unpack(feed, agency)
    if "stop_times.txt" not in names:
        raise DeskError(f"{feed}: no stop_times.txt beside its trips.txt")
    report.draft("agency/", f"{counted(len(names), 'file')} of {feed}, unchanged")
    trips = sort_trips(agency)
    with sound_feed(agency, trips, room) as source:
        if "frequencies.txt" in names:
            _tell_repeats(expand(source, room), report)
        copied = [name for name in AGENCY_FILES if name in names and not (room / name).exists()]
        for name in copied:
            shutil.copyfile(source / name, room / name)
    if copied:
        report.draft(", ".join(copied), "copied from agency/")
    tell_left_out(trips, report)
    for name in AGENCY_FILES:
        if (room / name).exists() and (room / name).stat().st_size > MOST_BYTES:
            report.mend(name, f"it has more than {MOST_BYTES:,} bytes, and the program reads no more")
    return trips


def _tell_repeats(repeats: Repeats, report: Report) -> None:
    """Tells what became of the trips that `frequencies.txt` repeats."""
    for text in repeats.left:
        report.mend("frequencies.txt", text)
    if repeats.patterns:
        report.draft("trips.txt, stop_times.txt",
                     f"from agency/, where {counted(repeats.patterns, 'trip')} that frequencies.txt repeats became "
                     f"{repeats.trips:,}, as ID@HH:MM:SS, without block_id")
    if repeats.inexact:
        report.look("trips.txt", f"frequencies.txt has no exact times of {some(sorted(repeats.inexact))}. They are planned "
                    "at the times that were written out.")


def choose_day(room: Path, asked: datetime.date | None, report: Report) -> datetime.date | None:
    """The day that is asked, or the one that is chosen, with the days around it; None where the feed has no calendars."""
    calendars = read_calendars(room)
    if not calendars.found:
        if asked:
            raise DeskError("--date: the feed has neither calendar.txt nor calendar_dates.txt")
        report.draft("desk.toml", f"no date, since the feed has no calendar; a layover of {LAYOVER} minutes")
        report.mend("desk.toml", "the feed has no calendar, so all of its trips are planned as if they ran on one day")
        return None
    days = Days(calendars, trips_by_service(room / "trips.txt"))
    if asked:
        check_date(days, asked)
    date, why = (asked, "as asked") if asked else choose(days, today())
    report.days = fortnight(days, date)
    report.draft("desk.toml", f"{date:%A} {date}, {why}; a layover of {LAYOVER} minutes")
    if not (room / "calendar.txt").exists():
        report.look("calendar_dates.txt", f"it is alone, without calendar.txt: {counted(len(calendars.added), 'date')} in it, and "
                    "trips run on no others")
    never = sum(count for service, count in days.trips.items() if service not in calendars.services())
    if never:
        report.look("trips.txt", f"{counted(never, 'trip')} of services that no calendar has never run")
    if days.range and days.range[1] < today():
        report.mend("desk.toml", f"the calendars end on {days.range[1]}, before today. Ask the agency for its newest feed.")
    if days.count(date) != days.usual(date):
        report.look("desk.toml", f"{date} is unlike other {date:%A}s, as the days above show")
    return date


def draft_places(town: Town, trips: SortedTrips, report: Report) -> list[Terminal]:
    """Drafts `terminals.csv` from the stops at which trips begin or end, of the day and of all others."""
    ends = all_ends(town, trips)
    terminals = draft_terminals(ends, town.stops)
    if len(terminals) > MOST_PLACES:
        ends = _ends(town)
        of_day = draft_terminals(ends, town.stops)
        report.look("terminals.csv", f"the trips of all days have {len(terminals):,} terminals, more than {MOST_PLACES}, so those of this "
                    "day alone are drafted. For another day run `./desk new` with --more.")
        terminals = of_day
    if not town.stops:
        report.mend("stops.txt", "it is missing or has no stop, so terminals.csv and deadheads.csv are not drafted")
        return terminals
    write_whole(town.path("terminals.csv"), terminals_text(terminals))
    by_name = [terminal.name for terminal in terminals if not terminal.by_station and len(terminal.stops) > 1]
    report.draft("terminals.csv", f"{counted(len(terminals), 'terminal')} of {counted(len(ends), 'stop')} where trips "
                 "begin or end: " + _kinds(terminals, len(by_name)))
    if by_name:
        report.look("terminals.csv", f"is each of these one place for a vehicle? {some(by_name)}")
    _look_at_neighbours(terminals, report)
    far = [f"{name} {metres / 1000:.0f} km" for name, metres in far_terminals(terminals)] if len(terminals) <= MOST_PLACES else []
    if far:
        report.look("terminals.csv", f"these lie far from all others: {some(far)}. Are their coordinates in stops.txt right?")
    missing = [stop for stop in ends if stop not in town.stops]
    if missing:
        report.mend("terminals.csv", f"stops.txt lacks {counted(len(missing), 'stop')} where trips begin or end: "
                    + some(missing))
    return terminals


def _ends(town: Town) -> list[str]:
    """The stops at which trips of the day begin or end."""
    return list(dict.fromkeys(stop for trip in town.day() for stop in (trip.first_stop, trip.last_stop) if stop))


def all_ends(town: Town, trips: SortedTrips) -> list[str]:
    """The stops at which trips of the day begin or end, and then those of other days of the calendar."""
    running = town.calendars.services() if town.calendars.found else None
    others = (stop for name, ends in trips.ends.items() if running is None or trips.services[name] in running for stop in ends)
    return list(dict.fromkeys([*_ends(town), *others]))


def _kinds(terminals: Sequence[Terminal], by_name: int) -> str:
    """How many terminals were drafted in which way."""
    by_station = sum(terminal.by_station for terminal in terminals)
    kinds = ((by_station, "by parent_station"), (by_name, f"by one name within {NEAR:.0f} metres"),
             (len(terminals) - by_station - by_name, "of a single stop"))
    return ", ".join(f"{number:,} {kind}" for number, kind in kinds if number)


def _look_at_neighbours(terminals: Sequence[Terminal], report: Report) -> None:
    """Tells of terminals that may be one place, since they lie close to one another."""
    if len(terminals) > MOST_PLACES:
        return
    close = [f"{first.name} and {second.name}"
             for number, first in enumerate(terminals) for second in terminals[number + 1:]
             if first.point and second.point and first.point.is_within(NEAR, second.point)]
    if close:
        report.look("terminals.csv", f"these lie within {NEAR:.0f} metres and are not one terminal: {some(close)}")


def draft_settings(town: Town, date: datetime.date | None, terminals: Sequence[Terminal], report: Report) -> None:
    """Drafts `desk.toml`, with names of the feed as examples, and with the layovers of the blocks of today."""
    services = list(dict.fromkeys(trip.service_id for trip in town.day()))
    route = next((trip.route_id for trip in town.day() if trip.route_id), "")
    layovers = layovers_of_today(town, report)
    terminal = next((terminal.name for terminal in terminals if terminal.name not in layovers), "")
    write_whole(town.path("desk.toml"), settings_text(date, services, terminal, route, layovers,
                                                        blocks={trip.block_id for trip in town.selected.values()}))


def draft_running(town: Town, terminals: Sequence[Terminal], depot: Depot | None, pace: Pace, report: Report) -> None:
    """Drafts `deadheads.csv`, and `depot.csv` where there is a depot."""
    lost = [terminal.name for terminal in terminals if terminal.point is None]
    if len(terminals) > MOST_PLACES:
        report.mend("deadheads.csv", f"it is not drafted, since there are more than {MOST_PLACES} terminals")
        return
    if len(lost) == len(terminals):
        if town.stops:
            report.mend("deadheads.csv", "it is not drafted, since stops.txt has no coordinates of the terminals")
        return
    if lost:
        report.mend("deadheads.csv", f"no way leads to terminals without coordinates: {some(lost)}")
    ways = _kept("deadheads.csv", draft_ways(terminals, depot, pace), report)
    write_whole(town.path("deadheads.csv"), ways_text(ways))
    report.draft("deadheads.csv", f"{counted(len(ways), 'way')} from coordinates, straight line x {pace.detour:g} at "
                 f"{pace.speed:g} km/h, rounded up to minutes")
    _look_at_ways(ways, report)
    if depot:
        _draft_depot(town, terminals, depot, pace, report)


def _kept(name: str, ways: Sequence[Way], report: Report) -> list[Way]:
    """The ways that a file can have, and a line for those that take too long."""
    kept = readable(ways)
    if len(kept) < len(ways):
        report.mend(name, f"{counted(len(ways) - len(kept), 'way')} of more than {MOST_EMPTY_MINUTES:,} minutes left out. "
                    "Are the coordinates right?")
    return kept


def _look_at_ways(ways: Sequence[Way], report: Report) -> None:
    """Tells of the longest ways, each in one of its directions."""
    longest = sorted((way for way in ways if way.start < way.end), key=lambda way: (-way.minutes, way.start, way.end))
    if longest:
        told = some([f"{way.start} to {way.end} {way.minutes}" for way in longest[:MOST_NAMED]])
        report.look("deadheads.csv", "a straight line knows no river and no one-way street. "
                    f"The longest ways in minutes: {told}")


def _draft_depot(town: Town, terminals: Sequence[Terminal], depot: Depot, pace: Pace, report: Report) -> None:
    """Drafts `depot.csv`, and says what the depot as a place of `deadheads.csv` does."""
    pulls = _kept("depot.csv", draft_pulls(terminals, depot, pace), report)
    write_whole(town.path("depot.csv"), pulls_text(pulls))
    report.draft("depot.csv", f"from {depot.name} to {counted(len(pulls), 'terminal')} and home, by the same rule")
    if depot.terminal:
        report.look("depot.csv", f"the depot lies at the terminal {depot.name}, where its ways take no minutes")
    elif len(terminals) < MOST_PLACES:
        report.look("deadheads.csv", f"{depot.name} is a place there too, so a vehicle can go home between two trips. The "
                    "program shows that as one deadhead with the minutes of both ways, and takes it only where no other "
                    "way is shorter. So it matters where you take direct ways out.")


def judge_limits(town: Town, terminals: Sequence[Terminal], report: Report) -> None:
    """Tells where the day has more than the program plans."""
    trips = len(town.day())
    if trips > MOST_TRIPS:
        report.first = [f"trips.txt: {trips:,} trips run on that day, and the program plans at most {MOST_TRIPS:,}. Part the town:",
                        *(f"  {text}" for text in proposals(town, report.town))]
    if len(terminals) > MOST_PLACES:
        report.mend("terminals.csv", f"{len(terminals):,} terminals are more than the {MOST_PLACES} that the program plans "
                    "with. Give stops that are one place the same terminal.")
