"""What a running board shows: the rows of a vehicle's day, with the timing points of its trips.

The blocks and their minutes are those of the program. What passengers read is as it is published, with the script's shifts: its
seconds stay, and the layover behind it stands apart.
"""
from __future__ import annotations

from collections.abc import Iterator
from dataclasses import dataclass

from desk.plans import Block, Plan, Ride
from desk.records import open_records
from desk.times import format_time, is_no_time, parse_time
from desk.town import Town

EXACT = ("", "1")
"""What `timepoint` has where the time of a row is kept. Where the column is not there, each time is."""


@dataclass(frozen=True, slots=True)
class Point:
    """A timing point of a trip with its published times, in seconds and with the shift; None where none is published."""

    stop: str
    arrives: int | None
    departs: int | None


@dataclass(frozen=True, slots=True)
class Row:
    """A row of a board, in seconds: `out`, `trip`, `layover`, `empty`, `wait` or `home`. A trip has its ride and its points."""

    kind: str
    start: str
    leaves: int
    end: str
    arrives: int
    minutes: int
    ride: Ride | None = None
    points: tuple[Point, ...] = ()


@dataclass(frozen=True, slots=True)
class Board:
    """The board of a block."""

    block: Block
    services: tuple[str, ...]
    rows: tuple[Row, ...]


def make_boards(town: Town, plan: Plan, ends: bool = False) -> list[Board]:
    """The board of each block of a plan, with the timing points of its trips, or with their ends alone."""
    points = timing_points(town, plan, ends)
    boards = []
    for block in plan.blocks:
        services = sorted({ride.trip.service_id for ride in block.rides if ride.trip})
        boards.append(Board(block, tuple(services), tuple(_rows(block, points))))
    return boards


def _rows(block: Block, points: dict[str, tuple[Point, ...]]) -> Iterator[Row]:
    """The rows of a block, from the depot to the depot. What takes no time has no row."""
    waits = {ride.name: since for ride, since in block.waits()}
    for at, ride in enumerate(block.rides):
        free = block.rides[at - 1].ends if at else block.leaves
        if ride.empty:
            yield _row("empty" if at else "out", ride.empty_from, free, ride.start, free + ride.empty)
        if ride.name in waits:
            yield _row("wait", ride.start, waits[ride.name], ride.start, ride.departs)
        first, last = points[ride.name][0], points[ride.name][-1]
        yield Row("trip", first.stop, first.departs, last.stop, last.arrives, ride.arrives - ride.departs, ride, points[ride.name])
        if ride.layover:
            yield Row("layover", ride.end, last.arrives, ride.end, 60 * ride.ends, ride.layover)
    if block.home:
        yield _row("home", block.rides[-1].end, block.rides[-1].ends, "", block.returns)


def _row(kind: str, start: str, leaves: int, end: str, arrives: int) -> Row:
    """A row that begins and ends with a minute."""
    return Row(kind, start, 60 * leaves, end, 60 * arrives, arrives - leaves)


def timing_points(town: Town, plan: Plan, ends: bool = False) -> dict[str, tuple[Point, ...]]:
    """The timing points of each ride: its ends, and the rows between whose times are published and kept."""
    rides = {ride.name: ride for block in plan.blocks for ride in block.rides}
    found: dict[str, list[tuple[int, Point]]] = {name: [] for name in rides}
    with open_records(town.path("stop_times.txt")) as records:
        name, arrives, departs, stop, place = (
            records.column(column) for column in ("trip_id", "arrival_time", "departure_time", "stop_id", "stop_sequence"))
        exact = records.find("timepoint")
        for _, fields in records:
            ride = rides.get(fields[name])
            if ride is None or ride.trip is None:
                continue
            sequence = int(fields[place])
            at_end = sequence in (ride.trip.first_sequence, ride.trip.last_sequence)
            kept = not ends and (exact is None or fields[exact].strip(" ") in EXACT)
            times = _seconds(fields[arrives], ride), _seconds(fields[departs], ride)
            if at_end or kept and times != (None, None):
                called = town.stops[fields[stop]].name if fields[stop] in town.stops else ""
                found[ride.name].append((sequence, Point(called or fields[stop], *times)))
    return {name: _in_order(rides[name], points) for name, points in found.items()}


def _in_order(ride: Ride, found: list[tuple[int, Point]]) -> tuple[Point, ...]:
    """The points of a ride by their sequence. One that is not published has its ends alone, at the minutes of the script."""
    if ride.trip is None:
        return Point(ride.start, None, 60 * ride.departs), Point(ride.end, 60 * ride.arrives, None)
    points = [point for _, point in sorted(found, key=lambda pair: pair[0])]
    first, last = points[0], points[-1]
    points[0] = Point(first.stop, None, first.arrives if first.departs is None else first.departs)
    points[-1] = Point(last.stop, last.departs if last.arrives is None else last.arrives, None)
    return tuple(points)


def _seconds(text: str, ride: Ride) -> int | None:
    """The seconds of a published time with the shift of its ride; None where it is empty or of no form."""
    seconds = None if is_no_time(text) else parse_time(text)
    return None if seconds is None else seconds + 60 * ride.shift


def clock(seconds: int) -> str:
    """Seconds as `HH:MM:SS`; before midnight with a minus in front."""
    return "-" + format_time(-seconds) if seconds < 0 else format_time(seconds)
