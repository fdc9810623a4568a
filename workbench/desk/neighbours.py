"""Trips that follow on one another in blocks: those that the feed states, those that another plan has, and changes of line."""
from __future__ import annotations

from collections.abc import Iterable, Iterator, Mapping, Sequence
from itertools import pairwise

from desk.town import DayTrip

Pair = tuple[str, str]
"""Two trips of a block by their names, the one after the other."""


def neighbours(blocks: Iterable[Sequence[str]]) -> Iterator[Pair]:
    """The neighbours of blocks, which are trips in their order."""
    for trips in blocks:
        yield from pairwise(trips)


def other_neighbours(before: Iterable[Sequence[str]], after: Iterable[Sequence[str]]) -> set[str]:
    """The trips of two plans before or after which another trip runs in the second one. Trips of one plan alone are passed over."""
    plans = [list(blocks) for blocks in (before, after)]
    first, second = ({trip for trips in blocks for trip in trips} for blocks in plans)
    both = first & second
    was, now = (set(neighbours([trip for trip in trips if trip in both] for trips in blocks)) for blocks in plans)
    return {trip for pair in was ^ now for trip in pair}


def stated_neighbours(trips: Iterable[DayTrip], departs: Mapping[str, int]) -> set[Pair]:
    """The neighbours of the blocks that the feed states by `block_id`: trips that run, by departure and then as in `trips.txt`."""
    stated: dict[str, list[str]] = {}
    running = [trip for trip in trips if trip.block_id and trip.trip_id in departs]
    for trip in sorted(running, key=lambda trip: (departs[trip.trip_id], trip.record)):
        stated.setdefault(trip.block_id, []).append(trip.trip_id)
    return set(neighbours(stated.values()))


def count_neighbours(blocks: Iterable[Sequence[str]], trips: Sequence[DayTrip], departs: Mapping[str, int]) -> dict[str, int]:
    """Of the neighbours of a plan those that the feed states, and those of two lines: with another `route_id`, or without one.

    `departs` has the minutes of the trips that run.
    """
    pairs = list(neighbours(blocks))
    stated = stated_neighbours(trips, departs)
    lines = {trip.trip_id: trip.route_id for trip in trips}
    changes = sum(not lines.get(before) or lines[before] != lines.get(after) for before, after in pairs)
    return {"neighbours": len(pairs), "stated_neighbours": len(stated), "kept_neighbours": len(stated.intersection(pairs)),
            "line_changes": changes}
