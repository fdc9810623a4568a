"""Notes on trips: repeated ones that are planned once, blocks of today and of other days, and tolerances of no trip."""
from __future__ import annotations

import re
from collections.abc import Iterator

from desk.hints.names import Finding, shown
from desk.missing_block_ids import unblocked
from desk.notes.note import Note, View
from desk.records import open_records

PREFIXES = ("B", "V", "D", "W", "X", "Y", "Z", "BD", "VD", "NEW", "PLAN")
"""Prefixes of block names. The first free one is named."""


def repeated(view: View) -> Iterator[Note]:
    """Each trip of the day that `frequencies.txt` repeats and that is planned once."""
    here = {name: record for name, record in view.repeats.items() if name in view.trips.selected}
    if not here:
        return
    path = view.town.agency_path("frequencies.txt")
    with open_records(path) as records:
        places = [records.column(column) for column in ("trip_id", "start_time", "end_time", "headway_secs")]
        for number, fields in records:
            trip, start, end, headway = (fields[at] for at in places)
            if here.get(trip) == number:
                yield Note("repeated-trip", str(path.relative_to(view.town.feed)), number,
                           f"{shown(trip)} runs every {headway} seconds from {start} to {end}, and is planned once",
                           "Make the town with `./desk new`, which writes each repetition as a trip")


def no_block_id(view: View) -> Iterator[Note]:
    """That the feed states no blocks of today, or not of each trip."""
    trips = view.trips
    if not trips.selected or not trips.without_block:
        return
    do = "Leave `audit` alone, or ask the agency for the blocks of today"
    if not trips.has_blocks:
        yield Note("no-block-id", "trips.txt", None, "it has no column `block_id`, so `audit` takes each trip for a block of its own", do)
    else:
        count = f"{len(trips.without_block)} of {len(trips.selected)} trips of the day"
        found = unblocked(view.town, trips)
        yield Note("no-block-id", "trips.txt", trips.without_block[0],
                   f"{count} have no `block_id`, so `audit` takes each of them for a block of its own: {found.text}",
                   do if found.others else "Count them off where `audit` says how many vehicles are above the least")


def other_days_blocks(view: View) -> Iterator[Note]:
    """That trips of other days have blocks under names that `write` will give, and which prefix is free."""
    prefix = view.town.settings.get("block_prefix", "B")
    if not isinstance(prefix, str):
        return
    trips = view.trips
    taken = {name: record for name, record in trips.other_blocks.items() if is_given(name, prefix, len(trips.selected))}
    if not taken:
        return
    free = next((other for other in PREFIXES if not any(name.startswith(other) for name in trips.other_blocks)), None)
    do = f"Write `block_prefix = \"{free}\"` into desk.toml: no block of other days begins so" if free else "Write another `block_prefix`"
    name, record = next(iter(taken.items()))
    more = f" and {len(taken) - 1} more blocks of other days have names" if len(taken) > 1 else " of another day has a name"
    yield Note("blocks-of-other-days", "trips.txt", record,
               f"the block {shown(name)}{more} that `write` may give, and then one block has the trips of two days", do)


def is_given(name: str, prefix: str, most: int) -> bool:
    """Whether `write` may give a block this name: the prefix and a number from 1 to the number of trips."""
    number = name.removeprefix(prefix)
    return name.startswith(prefix) and re.fullmatch("[1-9][0-9]{0,8}", number) is not None and int(number) <= most


def tolerances(view: View) -> Iterator[Note]:
    """Each trip of `tolerances.csv` that is no trip of the feed."""
    for name, record in view.tolerances.items():
        if view.trips.exists(name):
            continue
        unknown = Finding(f"{shown(name)} is no trip of trips.txt", "Write a `trip_id` of trips.txt, or take the record out")
        finding = view.trips.about(name) or unknown
        yield Note("no-such-trip", "tolerances.csv", record, f"{finding.found}; the record has no effect", finding.do)
