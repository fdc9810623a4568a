"""`desk compare`: two plans side by side, of one day or of two, and what a planner has to say to whom.

The numbers of each are those that the program says of it. Blocks are compared by their trips, their times and their empty
running, and not by their names. A vehicle that is saved in the morning gives all later blocks another number.
"""
from __future__ import annotations

import argparse
import json
import os
import sys
from collections import Counter
from collections.abc import Callable
from pathlib import Path

from desk.answers import ask
from desk.compare.days import as_trips_of
from desk.compare.periods import compare_periods, periods_text
from desk.compare.side import Found, Side, counts_of
from desk.compare.text import compare_text
from desk.errors import DeskError
from desk.files import read_bytes
from desk.lines import LineNames
from desk.neighbours import other_neighbours
from desk.period import has_days
from desk.plans import read_blocks, timetable
from desk.rooms import lay_settings, own_room
from desk.saved import FILES
from desk.scripts import fields_of
from desk.times import format_minute
from desk.town import Town, town_above

WORD = "compare"
HELP = "two plans side by side, of one day, of two days or of two periods, and who has to know what"

def add_arguments(parser: argparse.ArgumentParser) -> None:
    """The words of `desk compare`."""
    parser.add_argument("town", help="the plan that was: a folder, a blocks.csv, or the name of a saved version of the other folder")
    parser.add_argument("other", help="the plan that is to be, likewise")
    parser.add_argument("--json", action="store_true", help="as JSON")


def run(arguments: argparse.Namespace) -> int:
    """Prints what differs. The status is 1 where `check` says no to one of the plans."""
    first, second = version_of(arguments.town, arguments.other), version_of(arguments.other, arguments.town)
    if has_days(first) != has_days(second):
        raise DeskError(f"{first if has_days(first) else second} has days: name the folder of one of them, or two towns with days")
    if has_days(first):
        found = compare_periods(first, second, compared)
        text = periods_text(found)
    else:
        found = compared(first, second)
        text = compare_text(found)
    sys.stdout.write(json.dumps(found, ensure_ascii=False, indent=2) + "\n" if arguments.json else text)
    return 0 if is_proved(found) else 1


def compared(first: Path, second: Path) -> Found:
    """What differs between two plans. Of two days or of two feeds those trips are the same that passengers would call so."""
    with own_room() as room:
        sides = [read_side(path, base, room / name)
                 for path, base, name in ((first, second, "first"), (second, first, "second"))]
        days = [side.town.date for side in sides]
        if days[0] == days[1]:
            is_of_one_feed = len({read_bytes(side.town.path("trips.txt")) for side in sides}) == 1
            return compare(sides[0], sides[1] if is_of_one_feed else as_trips_of(*sides, at_one_minute=False))
        if None in days:
            raise DeskError(f"{sides[0].title} is of {days[0] or 'no date'} and {sides[1].title} of {days[1] or 'no date'}: "
                            "write a date into both")
        return compare(sides[0], as_trips_of(*sides)) | {"days": [f"{day:%A} {day}" for day in days]}


def is_proved(found: Found) -> bool:
    """Whether `check` says yes to all plans that are compared."""
    return all(pair[side]["check"]["verdict"] == "yes" for pair in found.get("pairs", [found]) for side in ("first", "second"))


def version_of(name: str, town: str) -> Path:
    """The path of this name, or where there is none the version of the town that has it."""
    version = Path(town) / "saved" / name
    return version if not os.path.lexists(name) and version.is_dir() else Path(name)


def read_side(path: Path, other: Path, room: Path) -> Side:
    """The plan of a folder or of a `blocks.csv`. What does not stand beside it is that of the feed with which it is compared."""
    blocks = path / "blocks.csv" if path.is_dir() else path
    feed = blocks.parent if has_feed(blocks.parent) else _folder(other)
    if not blocks.is_file():
        raise DeskError(f"{blocks} is not there" + (f": `./desk blocks {path}` writes it" if path.is_dir() else ""))
    if not has_feed(feed):
        raise DeskError(f"{path} and {other} are no feeds: one of them has to have trips.txt")
    town = Town(feed)
    if (feed / "blocks.csv").resolve() != blocks.resolve():
        town = Town(lay_over(feed, blocks, room))
    stated = {block.name: block for block in read_blocks(blocks)}
    names = {trip: block.name for block in stated.values() for trip in block.trips}
    times = timetable(town)
    return Side(str(path), town, ask("check", town), stated, times, names, counts_of(town, stated.values(), times))


def has_feed(folder: Path) -> bool:
    """Whether a folder has a feed: its own, or as that of a day type that of its town."""
    return (folder / "trips.txt").is_file() or town_above(folder) is not None


def _folder(path: Path) -> Path:
    """The folder of a plan."""
    return path if path.is_dir() else path.parent


def lay_over(feed: Path, blocks: Path, room: Path) -> Path:
    """A folder that shows a feed with these blocks, and with the script and the prices that stand beside them."""
    town = Town(feed)
    names = {path.name for folder in (town.feed, feed) for path in folder.iterdir() if path.is_file() or path.name == "agency"}
    files = {name: town.path(name) for name in names if town.path(name).exists()}
    files |= {name: blocks.parent / name for name in FILES if (blocks.parent / name).is_file()}
    files["blocks.csv"] = blocks
    room.mkdir()
    for name, path in files.items():
        (room / name).symlink_to(path.resolve())
    lay_settings(town, room)
    return room


def compare(first: Side, second: Side) -> Found:
    """What is the same and what differs between a plan and the one that is to follow it."""
    partner = partners(first, second)
    same = [(old, new) for old, new in partner.items() if first.key(old) == second.key(new)]
    changed = [(old, new) for old, new in partner.items() if first.key(old) != second.key(new)]
    arrived = set(partner.values())
    return {
        "first": _side(first), "second": _side(second), "trips": trips_that_differ(first, second, partner),
        "same": [{"first": old, "second": new} for old, new in same],
        "changed": [changed_block(first, second, old, new) for old, new in changed],
        "gone": [{"block": old, "trips": [{"trip": trip, "second": second.block_of.get(trip)} for trip in block.trips]}
                 for old, block in first.blocks.items() if old not in partner],
        "new": [{"block": new, "leaves": second.leaves(new), "ends": second.ends(new),
                 "trips": [{"trip": trip, "first": first.block_of.get(trip)} for trip in block.trips]}
                for new, block in second.blocks.items() if new not in arrived]}


def partners(first: Side, second: Side) -> dict[str, str]:
    """Which block of the second plan each of the first has become: the same, else the one with most of its trips."""
    by_key = {second.key(name): name for name in second.blocks}
    found = {name: by_key[first.key(name)] for name in first.blocks if first.key(name) in by_key}
    taken = set(found.values())
    common = Counter((first.block_of[trip], name) for trip, name in second.block_of.items() if trip in first.block_of)
    order = {name: at for at, name in enumerate(first.blocks)}
    for (old, new), _ in sorted(common.items(), key=lambda pair: (-pair[1], order[pair[0][0]])):
        if old not in found and new not in taken:
            found[old] = new
            taken.add(new)
    return {name: found[name] for name in first.blocks if name in found}


def changed_block(first: Side, second: Side, old: str, new: str) -> Found:
    """What a vehicle does that it did not do, and what it does no more."""
    were, are = first.blocks[old].trips, second.blocks[new].trips
    return {"first": old, "second": new, "leaves": [first.leaves(old), second.leaves(new)],
            "ends": [first.ends(old), second.ends(new)],
            "lost": [{"trip": trip, "second": second.block_of.get(trip)} for trip in were if trip not in are],
            "gained": [{"trip": trip, "first": first.block_of.get(trip)} for trip in are if trip not in were],
            "moved": [trip for trip in are if trip in were and first.times.get(trip) != second.times.get(trip)]}


def trips_that_differ(first: Side, second: Side, partner: dict[str, str]) -> Found:
    """The trips that run in one plan alone, at other times, or in a block that is not the partner of theirs. Of those of both plans it
    counts those with other neighbours, and those in a block of another name."""
    labels = _labels(first, second)
    both = [trip for trip in first.block_of if trip in second.block_of]
    other = [{"trip": trip, "first": first.block_of[trip], "second": second.block_of[trip]} for trip in both
             if partner.get(first.block_of[trip]) != second.block_of[trip]]
    moved = [trip for trip in both if trip in first.times and trip in second.times and first.times[trip] != second.times[trip]]
    beside = other_neighbours(*([block.trips for block in side.blocks.values()] for side in (first, second)))
    return {
        "both": len(both), "in_other_blocks": other, "other_neighbours": len(beside),
        "other_names": sum(first.block_of[trip] != second.block_of[trip] for trip in both),
        "cancelled": [labels(trip, first) for trip in first.block_of if trip not in second.block_of],
        "new": [labels(trip, second) for trip in second.block_of if trip not in first.block_of],
        "moved": [labels(trip, second) | {"minutes": second.times[trip][0] - first.times[trip][0],
                                          "departed": format_minute(first.times[trip][0])} for trip in moved]}


def _labels(first: Side, second: Side) -> Callable[[str, Side], Found]:
    """Tells of a trip what passengers know of it. An extra trip of the script has no line and no headsign."""
    lines = {side: LineNames(side.town) for side in (first, second)}
    trips = {side: {trip.trip_id: trip for trip in side.town.day()} for side in (first, second)}
    extras = {side: _extra_ends(side.town) for side in (first, second)}

    def label(name: str, side: Side) -> Found:
        """A trip of one of the two plans."""
        own = side.own.get(name, name)
        trip = trips[side].get(own)
        start, end = (trip.start, trip.end) if trip else extras[side].get(own, ("", ""))
        departs = format_minute(side.times[name][0]) if name in side.times else "?"
        return {"trip": name, "line": lines[side].of(trip), "departs": departs, "from": start, "to": end}

    return label


def _extra_ends(town: Town) -> dict[str, tuple[str, str]]:
    """The places between which each extra trip of the script runs, where all its records of that name say the same."""
    found: dict[str, set[tuple[str, str]]] = {}
    script = read_bytes(town.path("edits.csv")) if town.has("edits.csv") else b""
    for fields in fields_of("edits.csv", script):
        if fields[0] == "extra" and len(fields) == 6:
            found.setdefault(fields[1], set()).add((fields[2], fields[3]))
    return {name: ends.pop() for name, ends in found.items() if len(ends) == 1}


def _side(side: Side) -> Found:
    """The lines on a plan as a whole."""
    return {"plan": side.title, "check": side.verdict, "blocks": len(side.blocks), "trips": len(side.block_of), **side.counts}
