"""Trips that several day types share: which blocks a day type states for them, so that they keep their neighbours, and what differs.

The day type with the most dates comes first. Each other one takes the neighbours that its trips have in the plans before it.
"""
from __future__ import annotations

from collections.abc import Sequence
from itertools import pairwise

from desk.answers import FeedRefused, ask
from desk.hints.forms import PREFERRED
from desk.neighbours import neighbours
from desk.period import PlannedDay, TownPeriod
from desk.plan_run import left_of, stated_of
from desk.plans import StatedBlock, read_blocks
from desk.rooms import room_of, scripts_of
from desk.stated_blocks import lay_blocks, stated_text
from desk.stations import distinct
from desk.texts import Json

Blocks = Sequence[StatedBlock]


class SharedTrips:
    """The day types of a period in the order in which they are planned.

    The plans are those that stand. Another one is made in a room, as its own run makes it, but for plans that `must_stand`.
    """

    def __init__(self, period: TownPeriod, must_stand: bool = False) -> None:
        self.period, self.must_stand = period, must_stand
        self.days = sorted(period.planned, key=lambda day: -len(day.dates))
        self._trips: dict[str, frozenset[str]] = {}
        self._stated: dict[str, str] = {}
        self._blocks: dict[str, Blocks | None] = {}

    def trips(self, day: PlannedDay) -> frozenset[str]:
        """The trips of a day type."""
        if day.name not in self._trips:
            self._trips[day.name] = self.period.trips_of(day)
        return self._trips[day.name]

    def before(self, day: PlannedDay) -> list[PlannedDay]:
        """The day types from which one takes neighbours: those before it that share trips with it which no single one before has all."""
        found: list[tuple[PlannedDay, frozenset[str]]] = []
        for other in self.days[:self.days.index(day)]:
            shared = self.trips(other) & self.trips(day)
            if len(shared) > 1 and not any(shared <= earlier for _, earlier in found):
                found.append((other, shared))
        return [other for other, _ in found]

    def needs(self, day: PlannedDay) -> list[PlannedDay]:
        """The day types that are planned before this one; none where its plan does not stay near stated blocks."""
        return self.before(day) if "stated" in day.town.settings.get("prefer", PREFERRED) else []

    def stated(self, day: PlannedDay) -> str:
        """The `stated.csv` of a day type; empty where it has none."""
        if day.name not in self._stated:
            self._stated[day.name] = stated_text(self._stated_blocks(day)) if self.needs(day) else ""
        return self._stated[day.name]

    def blocks(self, day: PlannedDay) -> Blocks | None:
        """The blocks of a day type; None where the program refuses its feed, or where they must stand and do not."""
        if day.name not in self._blocks:
            self._blocks[day.name] = self._found(day)
        return self._blocks[day.name]

    def stands(self, day: PlannedDay) -> bool:
        """Whether the plan of a day type stands and is of the files as they are, and of the plans before it."""
        return "error" not in left_of(day.town) and stated_of(day.town) == self.stated(day)

    def _found(self, day: PlannedDay) -> Blocks | None:
        """The blocks that stand, or those of a run in a room."""
        if self.stands(day):
            return read_blocks(day.town.path("blocks.csv"))
        if self.must_stand:
            return None
        with room_of(day.town, scripts_of(day.town), of_today=True) as room:
            lay_blocks(day.town, room, dict(self._stated_blocks(day)) if self.needs(day) else {})
            try:
                ask("blocks", day.town, room)
            except FeedRefused:
                return None
            return read_blocks(room / "blocks.csv")

    def _links(self, day: PlannedDay) -> dict[str, tuple[str, str]]:
        """The trip after each trip by the plans before, without the trips that a day type lacks, and the block that has the pair."""
        found: dict[str, tuple[str, str]] = {}
        taken: set[str] = set()
        for other in self.before(day):
            shared = self.trips(other) & self.trips(day)
            for block in self.blocks(other) or ():
                for one, two in pairwise(trip for trip in block.trips if trip in shared):
                    if one not in found and two not in taken:
                        found[one] = two, block.name
                        taken.add(two)
        return found

    def _stated_blocks(self, day: PlannedDay) -> dict[str, str]:
        """The block of each trip with neighbours that are taken: one for all that follow on one another. It has the name of the first
        pair's block, if no other has that."""
        links = self._links(day)
        after = {trip for trip, _ in links.values()}
        found: dict[str, str] = {}
        names: set[str] = set()
        for first, (_, name) in links.items():
            if first in after:
                continue
            name = distinct(name, "part", lambda other: other in names)
            names.add(name)
            trip: str | None = first
            while trip is not None:
                found[trip] = name
                trip = links[trip][0] if trip in links else None
        return found

    def differ(self, day: PlannedDay) -> Json | None:
        """How many pairs of neighbours that a day type shares with plans before it are none in its own, and how many shared trips are in
        blocks of other names. None where it shares no trips, or its plan does not stand."""
        own = self.blocks(day) if self.before(day) else None
        if own is None:
            return None
        names = {trip: block.name for block in own for trip in block.trips}
        pairs = {(one, two) for one, (two, _) in self._links(day).items() if one in names and two in names}
        others: dict[str, str] = {}
        for other in self.before(day):
            for block in self.blocks(other) or ():
                for trip in block.trips:
                    others.setdefault(trip, block.name)
        shared = others.keys() & names.keys() & self.trips(day)
        return {"pairs": len(pairs), "other_pairs": len(pairs.difference(neighbours(block.trips for block in own))),
                "trips": len(shared), "other_names": sum(others[trip] != names[trip] for trip in shared)}
