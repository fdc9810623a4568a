"""Notes on the ways of `deadheads.csv`: terminals that none reaches, ways that take much too long, and ways without one back."""
from __future__ import annotations

import heapq
from collections.abc import Iterator

from desk.hints.names import shown
from desk.notes.deadheads import Way
from desk.notes.note import Note, View

MUCH_LONGER = 1.5
"""By which factor a way takes much longer than another one."""

LEAST_LONGER = 5
"""By how many minutes it does so at least."""

NEAREST = 16
"""How many places near to the start of a way are looked at for a shorter one."""

UNREACHED = 1 << 30
"""More minutes than any walk has."""


def unreached(view: View) -> Iterator[Note]:
    """Each terminal of the day that no deadhead reaches, or that none leaves."""
    ways = view.ways
    if not ways or not view.day:
        return
    starts, ends = {way.start for way in ways}, {way.end for way in ways}
    for name in sorted(view.places.day - (starts & ends)):
        where = "away from" if name in ends else "to" if name in starts else "to or away from"
        yield Note("no-way", "deadheads.csv", None, f"no deadhead leads {where} {shown(name)}",
                   f"Write records with {shown(name)}, if vehicles run empty there")


def one_way(view: View) -> Iterator[Note]:
    """Each way without one back, but for those of names that are no place."""
    if not view.ways or not view.day:
        return
    pairs = {(way.start, way.end) for way in view.ways}
    for way in view.ways:
        if (way.end, way.start) not in pairs and view.places.is_known(way.start) and view.places.is_known(way.end):
            yield Note("one-way", "deadheads.csv", way.record, f"{shown(way.start)} to {shown(way.end)} has no way back",
                       f"Write a record from {shown(way.end)} to {shown(way.start)}, if vehicles run empty there")


def slow(view: View) -> Iterator[Note]:
    """Each way that takes much longer than over other records, or than the way back."""
    ways = view.ways
    onward: dict[str, dict[str, Way]] = {}
    for way in ways:
        onward.setdefault(way.start, {})[way.end] = way
    for start, direct in onward.items():
        shorter = shorter_walks(start, onward)
        for way in direct.values():
            least, over = shorter.get(way.end, (way.minutes, ""))
            back = onward.get(way.end, {}).get(start)
            if is_much_longer(way.minutes, least):
                yield _slow(way, f"by way of {shown(over)} it takes {least}", "Look at the minutes of these ways")
            elif back is not None and is_much_longer(way.minutes, back.minutes):
                yield _slow(way, f"the way back takes {back.minutes}, record {back.record}", "Look at the minutes of both")


def _slow(way: Way, other: str, do: str) -> Note:
    """That a way takes much longer than another one."""
    found = f"{shown(way.start)} to {shown(way.end)} takes {way.minutes} minutes, and {other}"
    return Note("slow-way", "deadheads.csv", way.record, found, do)


def is_much_longer(minutes: int, other: int) -> bool:
    """Whether a way takes much longer than another one."""
    return minutes >= MUCH_LONGER * other and minutes - other >= LEAST_LONGER


def shorter_walks(start: str, onward: dict[str, dict[str, Way]]) -> dict[str, tuple[int, str]]:
    """The minutes of walks that are shorter than the record from this place, each with the last place on it.

    They lead over the NEAREST places that are reached first, and from there by one record more.
    """
    least = {way.end: way.minutes for way in onward[start].values()}
    shorter: dict[str, tuple[int, str]] = {}
    next_ones = [(minutes, place) for place, minutes in least.items()]
    heapq.heapify(next_ones)
    met = {start}
    while next_ones and len(met) <= NEAREST:
        minutes, place = heapq.heappop(next_ones)
        if place in met:
            continue
        met.add(place)
        for way in onward.get(place, {}).values():
            if way.end not in met and minutes + way.minutes < least.get(way.end, UNREACHED):
                least[way.end] = minutes + way.minutes
                shorter[way.end] = least[way.end], place
                heapq.heappush(next_ones, (least[way.end], way.end))
    return shorter
