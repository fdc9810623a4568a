"""A plan of the program: `blocks.csv` and `boards.csv` read, and judged to be of one plan and of the feed as it is now.

The minutes are those of the files and texts of the program. A plan is given only where `check` says yes to it.
"""
from __future__ import annotations

import re
from collections.abc import Iterator
from dataclasses import dataclass
from pathlib import Path
from typing import NoReturn

from desk import texts
from desk.answers import ask
from desk.errors import DeskError
from desk.records import Records, open_records
from desk.times import arrival_minute, departure_minute, format_minute
from desk.town import DayTrip, Town


@dataclass(frozen=True, slots=True)
class StatedBlock:
    """A block as `blocks.csv` states it: its trips in their order, with the empty minutes before each."""

    name: str
    trips: tuple[str, ...]
    deadheads: tuple[int, ...]


@dataclass(frozen=True, slots=True)
class Leg:
    """A record of `boards.csv`: a trip, or a deadhead, which has no name. The minutes of a trip have its layover in them."""

    trip: str
    start: str
    leaves: int
    end: str
    arrives: int


@dataclass(frozen=True, slots=True)
class Ride:
    """A trip in its block, with the way to it. `trip` is None for an extra trip of the script.

    `empty` minutes before it the vehicle leaves `empty_from`, or the depot where it is the first. It departs and arrives at these
    minutes, by the timetable after the script, and is free after the layover. `shift` is by how much the script has moved it.
    """

    name: str
    trip: DayTrip | None
    empty_from: str
    empty: int
    start: str
    departs: int
    end: str
    arrives: int
    layover: int
    shift: int

    @property
    def ends(self) -> int:
        """The minute in which the vehicle is free for what follows."""
        return self.arrives + self.layover


@dataclass(frozen=True, slots=True)
class Block:
    """What a vehicle does: its rides, and the minutes home from the last one."""

    name: str
    vehicle_class: str | None
    rides: tuple[Ride, ...]
    home: int

    @property
    def leaves(self) -> int:
        """The minute in which it leaves the depot, which may be before midnight and then is negative."""
        return self.rides[0].departs - self.rides[0].empty

    @property
    def returns(self) -> int:
        """The minute in which it is home."""
        return self.rides[-1].ends + self.home

    def waits(self) -> Iterator[tuple[Ride, int]]:
        """Each ride before which the vehicle waits, and from which minute on: once it is free, and has run empty to its start."""
        for before, ride in zip(self.rides, self.rides[1:]):
            if before.ends + ride.empty < ride.departs:
                yield ride, before.ends + ride.empty


@dataclass(frozen=True, slots=True)
class Plan:
    """The blocks, and the vehicles and empty minutes that `check` says they have. `refused` counts the refused records."""

    blocks: tuple[Block, ...]
    vehicles: int
    minutes: int
    refused: int


def timetable(town: Town) -> dict[str, tuple[int, int]]:
    """The minutes in which each trip that runs departs and ends, after the script, as `fixed` says them."""
    trips = [trip for block in ask("fixed", town)["blocks"] for trip in block["trips"]]
    return {trip["trip"]: (texts.minute_of(trip["departs"]), texts.minute_of(trip["ends"])) for trip in trips}


def read_blocks(path: Path) -> list[StatedBlock]:
    """The blocks of a `blocks.csv`. A record of no form is a DeskError."""
    found: dict[str, list[tuple[str, int]]] = {}
    last = None
    with open_records(path) as records:
        block, trip, deadhead = (records.column(name) for name in ("block_id", "trip_id", "deadhead"))
        for number, fields in _records_in_form(records):
            digits = fields[deadhead].strip(" ")
            if not re.fullmatch("[0-9]{1,6}", digits) or not fields[block] or not fields[trip]:
                raise DeskError(f"{path} record {number}: not in form")
            if fields[block] != last and fields[block] in found:
                raise DeskError(f"{path} record {number}: block {fields[block]} ended before it")
            last = fields[block]
            found.setdefault(last, []).append((fields[trip], int(digits)))
    return [StatedBlock(name, *zip(*rows)) for name, rows in found.items()]


def read_boards(path: Path) -> dict[str, list[Leg]]:
    """The boards of a `boards.csv`, block by block. A record of no form is a DeskError."""
    boards: dict[str, list[Leg]] = {}
    with open_records(path) as records:
        places = [records.column(name) for name in ("block_id", "kind", "trip_id", "from", "leaves", "to", "arrives")]
        for number, fields in _records_in_form(records):
            block, kind, trip, start, leaves, end, arrives = (fields[place] for place in places)
            clocks = re.fullmatch(texts.MINUTE, leaves) and re.fullmatch(texts.MINUTE, arrives)
            if not clocks or kind not in ("trip", "dh") or bool(trip) != (kind == "trip"):
                raise DeskError(f"{path} record {number}: not in form")
            boards.setdefault(block, []).append(Leg(trip, start, texts.minute_of(leaves), end, texts.minute_of(arrives)))
    return boards


def read_plan(town: Town) -> Plan:
    """The plan that stands in a town. It is refused where its two files are not of one plan or `check` does not say yes."""
    verdict = ask("check", town)
    if verdict["verdict"] != "yes":
        raise DeskError(f"check says no: {verdict['reason']}: `./desk blocks {town.folder}` plans anew")
    stated = read_blocks(town.path("blocks.csv"))
    if not town.has("boards.csv"):
        raise DeskError(f"boards.csv is not in {town.folder}: `./desk joined {town.folder}` writes it")
    boards = read_boards(town.path("boards.csv"))
    refuse_two_plans(stated, boards, town.folder)
    rides = Rides(town)
    blocks = tuple(rides.block(block, boards[block.name]) for block in stated)
    empty = sum(ride.empty for block in blocks for ride in block.rides) + sum(block.home for block in blocks)
    if (len(blocks), empty) != (verdict["vehicles"], verdict["minutes"]):
        raise DeskError(f"{town.folder}: its files have {len(blocks)} vehicles and {empty} empty minutes, and check says "
                        f"{verdict['vehicles']} and {verdict['minutes']}")
    return Plan(blocks, verdict["vehicles"], verdict["minutes"], len(verdict["refused"]))


def refuse_two_plans(stated: list[StatedBlock], boards: dict[str, list[Leg]], folder: Path) -> None:
    """A DeskError where the boards are not those of these blocks: other trips, another order, other empty minutes."""
    again = f"boards.csv and blocks.csv are not of one plan: `./desk blocks {folder}` and `./desk joined {folder}` write both"
    if [block.name for block in stated] != list(boards):
        raise DeskError(f"{again}: they have other blocks")
    for block in stated:
        trips, ways, before = [], [], 0
        for leg in boards[block.name]:
            if leg.trip:
                trips.append(leg.trip)
                ways.append(before)
            before = 0 if leg.trip else leg.arrives - leg.leaves
        # What stands before the first trip is the way out of the depot, which boards do not have.
        if tuple(trips) != block.trips or tuple(ways[1:]) != block.deadheads[1:] or ways[0] or before:
            raise DeskError(f"{again}: block {block.name} differs")


class Rides:
    """The feed as it stands, by which the records of the boards become rides."""

    def __init__(self, town: Town) -> None:
        self.town = town
        self.trips = {trip.trip_id: trip for trip in town.day()}
        self.times = timetable(town)
        self.pull_in = _pull_in(town)

    def block(self, stated: StatedBlock, legs: list[Leg]) -> Block:
        """A block with its rides."""
        rides: list[Ride] = []
        for leg in legs:
            if leg.trip:
                rides.append(self.ride(leg, stated.deadheads[len(rides)], rides[-1].end if rides else ""))
        self.refuse_gaps(stated.name, legs)
        classes = bool(self.town.table("classes"))
        vehicle_class = rides[0].start.rpartition("/")[2] if classes else None
        return Block(stated.name, vehicle_class, tuple(rides), self.pull_in.get(self.town.of_post(rides[-1].end), 0))

    def ride(self, leg: Leg, empty: int, empty_from: str) -> Ride:
        """The ride of a trip's record. A record that is not of the feed as it stands is a DeskError."""
        if self.times.get(leg.trip) != (leg.leaves, leg.arrives):
            self.refuse(leg, "has other times than the timetable after the script")
        trip, layover, shift = self.trips.get(leg.trip), self.town.layover(self.town.of_post(leg.end)), 0
        if trip is not None:
            if trip.departure is None or trip.arrival is None:
                self.refuse(leg, "has no time at an end")
            shift = leg.leaves - departure_minute(trip.departure)
            if (trip.start, trip.end) != (leg.start, leg.end):
                self.refuse(leg, "runs between other places")
            if leg.arrives != arrival_minute(trip.arrival) + shift + layover:
                self.refuse(leg, "has another layover")
        return Ride(leg.trip, trip, empty_from, empty, leg.start, leg.leaves, leg.end, leg.arrives - layover, layover, shift)

    def refuse_gaps(self, name: str, legs: list[Leg]) -> None:
        """A DeskError where a vehicle would have to be in two places."""
        for before, after in zip(legs, legs[1:]):
            if before.end != after.start or before.arrives > after.leaves or not after.trip and before.arrives != after.leaves:
                raise DeskError(f"boards.csv: block {name}: what leaves {after.start} at {format_minute(after.leaves)} does "
                                "not follow on what stands before it")

    def refuse(self, leg: Leg, why: str) -> NoReturn:
        """Refuses a trip of the boards that is not of the feed as it stands."""
        raise DeskError(f"boards.csv: trip {leg.trip} {why}: `./desk joined {self.town.folder}` writes it anew")


def _pull_in(town: Town) -> dict[str, int]:
    """The minutes home from each terminal that `depot.csv` names."""
    if not town.has("depot.csv"):
        return {}
    with open_records(town.path("depot.csv")) as records:
        terminal, home = records.column("terminal"), records.column("pull_in")
        return {fields[terminal]: int(fields[home]) for _, fields in records}


def _records_in_form(records: Records) -> Iterator[tuple[int, list[str]]]:
    """The records of a file of the program. None has more fields than the header."""
    for number, fields in records:
        if len(fields) > len(records.header):
            raise DeskError(f"{records.name} record {number}: too many fields")
        yield number, fields
