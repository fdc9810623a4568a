"""Notes on pairs of trips that miss each other by less than a minute, since arrivals are rounded up and departures down."""
from __future__ import annotations

from bisect import bisect_right
from collections.abc import Iterator
from pathlib import Path

from desk.hints.names import shown
from desk.notes.note import Note, View
from desk.times import arrival_minute, departure_minute, format_time
from desk.town import DayTrip

KIND = "whole-minutes"
"""The kind of these notes."""


def misses(view: View) -> Iterator[Note]:
    """Each trip that leaves a place in the minute before others are free there, though they are so in time by the second."""
    ended: dict[str, list[tuple[int, DayTrip]]] = {}
    for trip in view.day:
        if trip.arrival is not None:
            ended.setdefault(trip.end, []).append((trip.arrival + 60 * layover_of(view, trip), trip))
    for of_place in ended.values():
        of_place.sort(key=_seconds)
    for trip in view.day:
        if trip.departure is not None and trip.start in ended:
            just = missed(ended[trip.start], trip)
            if just:
                yield _note(view, trip, just)


def in_one(notes: list[Note], folder: Path) -> list[Note]:
    """The notes of a town in this folder, where those on whole minutes are one with their number."""
    several = [note for note in notes if note.kind == KIND]
    if len(several) < 2:
        return notes
    one = Note(KIND, "stop_times.txt", None, f"{len(several)} trips depart where other vehicles are free by the second, and by whole "
               "minutes are one minute too late", f"`./desk notes {folder} --minutes` lists them")
    return [one if note is several[0] else note for note in notes if note.kind != KIND or note is several[0]]


def _seconds(end: tuple[int, DayTrip]) -> int:
    """The second at which a vehicle is free."""
    return end[0]


def layover_of(view: View, trip: DayTrip) -> int:
    """The minutes that a vehicle stays where a trip ends."""
    return view.town.layover(view.town.terminal(trip.last_stop))


def missed(ended: list[tuple[int, DayTrip]], trip: DayTrip) -> list[DayTrip]:
    """The trips that have ended by the second at which a trip departs, and by whole minutes have not."""
    departs = trip.departure or 0
    begin = bisect_right(ended, 60 * departure_minute(departs), key=_seconds)
    end = bisect_right(ended, departs, key=_seconds)
    return [other for seconds, other in ended[begin:end] if other is not trip and arrival_minute(seconds) > departure_minute(departs)]


def _note(view: View, trip: DayTrip, just: list[DayTrip]) -> Note:
    """That a trip just misses others."""
    first, layover = just[0], layover_of(view, just[0])
    more = f" and {len(just) - 1} more" if len(just) > 1 else ""
    stay = f" with a layover of {layover} minutes" if layover else ""
    return Note(KIND, "stop_times.txt", None,
                f"{shown(trip.trip_id)} departs at {format_time(trip.departure or 0)} and {shown(first.trip_id)}{more} arrives there at "
                f"{format_time(first.arrival or 0)}{stay}: in whole minutes that is one minute too late",
                f"Where one vehicle may make both, write `shift,{trip.trip_id},+1` into edits.csv, or a shorter layover")
