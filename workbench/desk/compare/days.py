"""Two plans of two days, or of two feeds: which trip of the one is which of the other.

Trips are the same that have one name and depart at one minute. Else they are those of one line that depart in one direction at one
minute.
"""
from __future__ import annotations

from collections.abc import Hashable
from dataclasses import replace

from desk.compare.side import Side
from desk.lines import LineNames
from desk.plans import StatedBlock
from desk.records import open_records
from desk.stations import distinct
from desk.times import format_minute


def as_trips_of(first: Side, second: Side, at_one_minute: bool = True) -> Side:
    """The second plan, its trips by the names that the same trips have in the first. A trip that is none of these has a name of its own.

    Of one day a trip keeps its name also where it departs at another minute.
    """
    same = same_trips(first, second, at_one_minute)
    taken, names = set(first.block_of), {}
    for name in second.block_of:
        shown = same.get(name, name)
        if name not in same and name in taken:
            departs = format_minute(second.times[name][0]) if name in second.times else "?"
            shown = distinct(f"{name} at {departs}", "other", lambda other: other in taken)
        names[name] = shown
        taken.add(shown)
    blocks = {name: StatedBlock(name, tuple(names[trip] for trip in block.trips), block.deadheads) for name, block in second.blocks.items()}
    times = {names[name]: first.times.get(same.get(name, ""), time) if at_one_minute else time
             for name, time in second.times.items() if name in names}
    return replace(second, blocks=blocks, times=times, block_of={names[name]: block for name, block in second.block_of.items()},
                   own={shown: name for name, shown in names.items() if shown != name})


def same_trips(first: Side, second: Side, at_one_minute: bool) -> dict[str, str]:
    """The trip of the first plan that each of the second is, where there is one. Where asked, trips of one name depart at one minute."""
    same = {name: name for name in second.block_of if name in first.block_of
            and (not at_one_minute or departs(first, name) == departs(second, name) is not None)}
    by_direction = all(has_directions(side) for side in (first, second))
    left: dict[Hashable, list[str]] = {}
    taken = set(same.values())
    for name, key in _keys(first, by_direction).items():
        if name not in taken:
            left.setdefault(key, []).append(name)
    for name, key in _keys(second, by_direction).items():
        if name not in same and left.get(key):
            same[name] = left[key].pop(0)
    return same


def departs(side: Side, name: str) -> int | None:
    """The minute in which a trip of a plan departs."""
    return side.times[name][0] if name in side.times else None


def has_directions(side: Side) -> bool:
    """Whether a feed says in which direction its trips run."""
    with open_records(side.town.path("trips.txt")) as records:
        return records.find("direction_id") is not None


def _keys(side: Side, by_direction: bool) -> dict[str, Hashable]:
    """The line, the direction and the minute of each trip of a plan. Where the feeds do not say it, the direction is that of its ends."""
    lines, found, ways = LineNames(side.town), {}, {}
    if by_direction:
        with open_records(side.town.path("trips.txt")) as records:
            name, way = records.column("trip_id"), records.column("direction_id")
            ways = {fields[name]: fields[way].strip(" ") for _, fields in records}
    for trip in side.town.day():
        if trip.trip_id in side.block_of and departs(side, trip.trip_id) is not None:
            way = ways.get(trip.trip_id) or (trip.start, trip.end)
            found[trip.trip_id] = lines.of(trip), way, departs(side, trip.trip_id)
    return found
