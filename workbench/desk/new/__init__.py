"""`./desk new FEED TOWN`: from an agency's zip to a folder that the program reads, with the planner's files drafted."""
from __future__ import annotations

import argparse
import datetime
import math
from collections.abc import Callable
from pathlib import Path

from desk.adopt import kept_before
from desk.calendars import format_date, parse_date
from desk.counts import counted
from desk.deadheads import Pace, find_depot
from desk.errors import DeskError, UsageError
from desk.hints.places import Places
from desk.hints.refusals import refusal_hints
from desk.new import additions, steps
from desk.new.days import NewDays, draft_folders, draft_shared, find_days, tell_left
from desk.new.pairs import draft_pairs
from desk.new.report import Report
from desk.new.room import carry_own, left_as_they_were, settle, town_room
from desk.new.sound_feed import judge_left_out
from desk.period import has_days
from desk.refused_trips import SortedTrips
from desk.town import Town

WORD = "new"
HELP = "make a town of an agency's feed: unpack it, choose a day, draft terminals, deadheads and the depot"


def add_arguments(parser: argparse.ArgumentParser) -> None:
    """The words of the command."""
    parser.epilog = "Example: ./desk new agency.zip town --depot 52.1,-0.45"
    parser.add_argument("feed", type=Path, metavar="FEED", help="the agency's feed: a zip or a folder in the form of GTFS")
    parser.add_argument("town", type=Path, metavar="TOWN", help="the folder that is made")
    which = parser.add_mutually_exclusive_group()
    which.add_argument("--date", type=_date, help="the day to plan, as 20260907; else the busiest weekday from today on")
    which.add_argument("--days", action="store_true", help="plan every day type of the calendars, each in a folder of its own")
    parser.add_argument("--speed", type=_number(1, 200), default=25.0, metavar="KMH",
                        help="the speed of empty vehicles in km/h; else 25")
    parser.add_argument("--detour", type=_number(1, 10), default=1.3, metavar="FACTOR",
                        help="how much longer a way is than the straight line; else 1.3")
    parser.add_argument("--depot", metavar="LAT,LON", help="where the depot is, as 52.1,-0.45, or the stop_id of a stop")
    again = parser.add_mutually_exclusive_group()
    again.add_argument("--replace", action="store_true", help="write the files anew that TOWN has already")
    again.add_argument("--more", action="store_true", help="keep the planner's files of TOWN, and add what FEED or --date needs")


def run(arguments: argparse.Namespace) -> int:
    """Makes the town and prints the report. The status is 1 where something has to be mended before the day is planned."""
    town = arguments.town.resolve()
    if arguments.feed.resolve() == town:
        raise UsageError(f"{arguments.town} is the feed itself: name another folder for the town")
    arguments.days = arguments.days or has_days(town)
    if arguments.days and arguments.date:
        raise UsageError(f"{arguments.town} has a folder for each day type: change the date in the desk.toml of one of them")
    report = Report(str(arguments.town))
    if arguments.more and not town.is_dir():
        raise UsageError(f"{arguments.town} is not there: without --more it is made")
    with town_room(town, arguments.replace or arguments.more) as room:
        try:
            (_make_more if arguments.more else _make)(room, arguments, report)
        except DeskError as error:
            raise _with_hints(error, Town(room / "agency")) from error
        left = [*left_as_they_were(room, town), *carry_own(room, town)]
        if left:
            report.draft(", ".join(left), "left as they were")
        if town.is_dir() and kept_before(Town(town)):
            report.look("trips.txt", "it has the blocks of the agency again, and no more those of `./desk adopt`")
        settle(room, town)
    print(report.text(), end="")
    return 1 if report.problems or report.first else 0


def _with_hints(error: DeskError, agency: Town) -> DeskError:
    """An error with what is known of it: why a file of the agency cannot be read as it should."""
    place = str(error).partition(": ")[0]
    hints = [hint.removeprefix(f"{place}: ") for hint in refusal_hints(agency, str(error)) if str(agency.folder) not in hint]
    return type(error)(": ".join([str(error), *hints]))


def _make(room: Path, arguments: argparse.Namespace, report: Report) -> None:
    """Makes all files of the town in the room."""
    trips = steps.unpack_feed(arguments.feed, room, report)
    days = find_days(room, arguments.town, report) if arguments.days else None
    date = None if days else steps.choose_day(room, arguments.date, report)
    town = days.on_busiest(room) if days else Town(room, {} if date is None else {"date": format_date(date)})
    _judge_left_out(town, days, trips, report)
    terminals = steps.draft_places(town, trips, report)
    depot = find_depot(arguments.depot, terminals, town.stops) if arguments.depot is not None else None
    steps.draft_running(town, terminals, depot, Pace(arguments.detour, arguments.speed), report)
    if days:
        draft_shared(town, days, terminals, report)
        draft_folders(room, days, arguments.replace, report)
    else:
        steps.draft_settings(town, date, terminals, report)
    draft_pairs(town, days, report)
    steps.judge_limits(town, terminals, report)
    if days:
        report.title = (f"{arguments.town}: {counted(len(days.found.types), 'day type')}, the busiest with "
                        f"{counted(len(town.day()), 'trip')}, from {arguments.feed}")
        return
    day = f"on {date:%A} {date}" if date else "without a date"
    report.title = (f"{arguments.town}: {counted(len(town.day()), 'trip')} {day}, between "
                    f"{counted(len(Places(Town(room), town.day()).day), 'terminal')}, from {arguments.feed}")


def _make_more(room: Path, arguments: argparse.Namespace, report: Report) -> None:
    """Makes the files of the town in the room with those of its planner, to which it adds what the feed or the date needs."""
    own = Town(arguments.town)
    trips = steps.unpack_feed(arguments.feed, room, report)
    town = additions.keep_settings(own, room, arguments.date, report)
    if arguments.date:
        additions.check_asked(town, arguments.date)
    days = find_days(room, arguments.town, report) if arguments.days else None
    if days:
        town = days.on_busiest(room, town.settings)
        draft_folders(room, days, False, report)
    else:
        additions.judge_day(town, report)
    _judge_left_out(town, days, trips, report)
    terminals = additions.add_places(own, town, trips, report)
    additions.add_running(own, town, terminals, arguments.depot, Pace(arguments.detour, arguments.speed), report)
    additions.add_pairs(own, town, days, report)
    steps.judge_limits(town, terminals, report)
    report.title = f"{arguments.town}: {counted(len(town.day()), 'trip')}, with what {arguments.feed} needs"


def _judge_left_out(town: Town, days: NewDays | None, trips: SortedTrips, report: Report) -> None:
    """Tells how many trips were left out: of all days, or of the one that is planned."""
    if days:
        tell_left(trips, report)
    else:
        judge_left_out(town, trips, report)


def _date(text: str) -> datetime.date:
    """The date of `--date`, with hyphens or without."""
    date = parse_date(text.replace("-", ""))
    if date is None:
        raise argparse.ArgumentTypeError(f"{text!r} is no date, as 20260907")
    return date


def _number(least: float, most: float) -> Callable[[str], float]:
    """The reader of a number from the least to the most."""
    def read(text: str) -> float:
        try:
            number = float(text)
        except ValueError:
            number = math.nan
        if not least <= number <= most:
            raise argparse.ArgumentTypeError(f"{text!r} is no number from {least} to {most}")
        return number
    return read
