"""Days that are made for tests of what is drawn: as many trips as are wanted, in blocks that can be run, and a feed with many ties."""
from __future__ import annotations

import datetime
import random
from pathlib import Path

from desk.day import Day, Proof, Published
from desk.plans import Block, Ride
from desk.texts import Json
from desk.times import format_minute
from desk.town import DayTrip, Town
from tests.feeds import table, write_feed

PLACES = 40
LINES = 24
PEAKS = ((480, 60), (1020, 75), (800, 260))
"""The minutes round which trips depart, and how far from them."""

SEED = 11


def made_day(trips: int) -> Day:
    """A day of so many trips with two peaks, some shifted by the script, from and to a depot."""
    published = _published(trips)
    blocks = _blocks(published)
    empty = sum(ride.empty for block in blocks for ride in block.rides) + sum(block.home for block in blocks)
    verdict = {"verdict": "yes", "vehicles": len(blocks), "minutes": empty, "refused": []}
    return Day(Town(Path("made town")), "state", {}, [], blocks, (len(blocks) + 9, len(blocks), empty), {}, [], published, "same", None,
               Proof(verdict, _deficits(blocks), {}), datetime.datetime(2026, 9, 7, 8, 15))


def _published(trips: int) -> dict[str, Published]:
    """The trips by their names, in the order of their departures."""
    draw = random.Random(SEED)
    found = {}
    minutes = sorted(int(min(1439, max(300, draw.gauss(*draw.choice(PEAKS))))) for _ in range(trips))
    for number, departs in enumerate(minutes):
        line = number % LINES
        start, end = (f"Terminal {place}" for place in draw.sample(((line * 3) % PLACES, (line * 7 + 5) % PLACES, 39 - line), 2))
        name, arrives = f"L{line}-{number:04}", departs + 14 + draw.randrange(40)
        trip = DayTrip(name, number + 1, "weekday", f"line {line}", f"to {end}", "", None, 2, start, end, start, end,
                       60 * departs, 60 * arrives)
        found[name] = Published(start, end, departs, arrives, trip)
    return found


def _blocks(published: dict[str, Published]) -> list[Block]:
    """Blocks in which each trip follows one that has ended, at its place or ten minutes of empty running away."""
    vehicles: list[list[Ride]] = []
    for name, trip in published.items():
        vehicle = min((vehicle for vehicle in vehicles if vehicle[-1].ends + _empty(vehicle[-1], trip) <= trip.departs),
                      key=lambda vehicle: (_empty(vehicle[-1], trip), vehicle[-1].ends), default=None)
        if vehicle is None:
            vehicle = []
            vehicles.append(vehicle)
        empty, before = (_empty(vehicle[-1], trip), vehicle[-1].end) if vehicle else (12, "")
        vehicle.append(Ride(name, trip.trip, before, empty, trip.start, trip.departs, trip.end, trip.arrives, 4, 0))
    return [Block(f"B{number}", None, tuple(rides), 9) for number, rides in enumerate(vehicles, 1)]


def _empty(before: Ride, trip: Published) -> int:
    """The empty minutes between two trips."""
    return 0 if before.end == trip.start else 10


def _deficits(blocks: list[Block]) -> Json:
    """The deficits of the places, as the program would say them."""
    changes: dict[str, dict[int, int]] = {}
    for block in blocks:
        for ride in block.rides:
            for place, minute, change in ((ride.start, ride.departs, 1), (ride.end, ride.ends, -1)):
                of_place = changes.setdefault(place, {})
                of_place[minute] = of_place.get(minute, 0) + change
    return {"places": [_place(name, of_place) for name, of_place in sorted(changes.items())]}


def _place(name: str, changes: dict[int, int]) -> Json:
    """The steps of a place from its changes."""
    deficit, most, at, steps = 0, 0, 0, []
    for minute in sorted(changes):
        deficit += changes[minute]
        if deficit > most:
            most, at = deficit, minute
        if changes[minute]:
            steps.append({"at": format_minute(minute), "deficit": deficit})
    return {"place": name, "max": most, "at": format_minute(at), "steps": steps}


def many_ties(folder: Path, trips: int = 160) -> Path:
    """A feed of trips between four places at random minutes, which may be shifted. Most shifts put trips into other blocks."""
    draw = random.Random(SEED)
    stops = []
    for number in range(trips):
        (start, end), departs = draw.sample("ABCD", 2), draw.randrange(360, 780)
        ends = ((1, start, departs), (2, end, departs + draw.randrange(40, 90)))
        stops += [(f"T{number:03}", order, stop, *[f"{minute // 60:02}:{minute % 60:02}:00"] * 2) for order, stop, minute in ends]
    return write_feed(folder, {
        "desk.toml": "layover = 4\nearly = 9\nlate = 9\n",
        "trips.txt": table("service_id,trip_id", [("W", f"T{number:03}") for number in range(trips)]),
        "stop_times.txt": table("trip_id,stop_sequence,stop_id,arrival_time,departure_time", stops)})
