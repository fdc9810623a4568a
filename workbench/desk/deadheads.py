"""Minutes of empty running drafted from coordinates: between terminals, and from and to the depot."""
from __future__ import annotations

import math
from collections.abc import Mapping, Sequence
from dataclasses import dataclass

from desk.errors import DeskError, UsageError
from desk.limits import MOST_EMPTY_MINUTES, MOST_PLACES
from desk.records import record_text
from desk.stations import Terminal, distinct, station_of
from desk.stops import Point, Stop, parse_point


@dataclass(frozen=True, slots=True)
class Pace:
    """How long a vehicle takes: how much longer than the great circle its way is, and its speed in km/h."""

    detour: float
    speed: float

    def minutes(self, first: Point, second: Point) -> int:
        """The minutes between two places, rounded up, and at least 1."""
        return max(1, math.ceil(first.metres_to(second) * self.detour / (self.speed * 1000 / 60)))


@dataclass(frozen=True, slots=True)
class Depot:
    """Where vehicles come from. `terminal` is the terminal at which it lies, or None for a place of its own."""

    name: str
    point: Point
    terminal: Terminal | None


@dataclass(frozen=True, slots=True)
class Way:
    """A record of `deadheads.csv`."""

    start: str
    end: str
    minutes: int


def find_depot(text: str, terminals: Sequence[Terminal], stops: Mapping[str, Stop]) -> Depot:
    """The depot of `--depot`: two numbers of degrees, or a stop."""
    latitude, comma, longitude = text.partition(",")
    point = parse_point(latitude, longitude) if comma and text not in stops else None
    here = None
    if point is None:
        if text not in stops:
            raise UsageError(f"--depot {text}: no stop has this stop_id, and it is no latitude and longitude, as 52.1,-0.45")
        point = stops[text].point
        if point is None:
            raise DeskError(f"--depot {text}: the stop has no coordinates in stops.txt")
        station = station_of(stops[text], stops)
        here = next((terminal for terminal in terminals if station == terminal.key or text in terminal.stops), None)
    names = {terminal.name for terminal in terminals}
    name = here.name if here else distinct("Depot", "garage", lambda name: name in names or name in stops)
    return Depot(name, point, here)


def draft_ways(terminals: Sequence[Terminal], depot: Depot | None, pace: Pace) -> list[Way]:
    """The ways between each two terminals with coordinates, and between them and a depot that is a place of its own."""
    places = [(terminal.name, terminal.point) for terminal in terminals]
    if depot and depot.terminal is None and len(places) < MOST_PLACES:
        places.append((depot.name, depot.point))
    return [Way(start, end, pace.minutes(from_point, to_point))
            for start, from_point in places for end, to_point in places
            if start != end and from_point is not None and to_point is not None]


def draft_pulls(terminals: Sequence[Terminal], depot: Depot, pace: Pace) -> list[Way]:
    """The way out of the depot to each terminal; that home takes as long. At its own terminal it takes no time."""
    pulls = [Way(depot.name, terminal.name, pace.minutes(depot.point, terminal.point))
             for terminal in terminals if terminal.point is not None and terminal is not depot.terminal]
    if depot.terminal:
        pulls.append(Way(depot.name, depot.terminal.name, 0))
    return pulls


def readable(ways: Sequence[Way]) -> list[Way]:
    """The ways that take no longer than a record may say."""
    return [way for way in ways if way.minutes <= MOST_EMPTY_MINUTES]


def ways_text(ways: Sequence[Way]) -> str:
    """The text of `deadheads.csv`."""
    return "from,to,minutes\n" + "".join(record_text((way.start, way.end, str(way.minutes))) for way in ways)


def pulls_text(pulls: Sequence[Way]) -> str:
    """The text of `depot.csv`."""
    rows = [(pull.end, str(pull.minutes), str(pull.minutes)) for pull in pulls]
    return "terminal,pull_out,pull_in\n" + "".join(map(record_text, rows))
