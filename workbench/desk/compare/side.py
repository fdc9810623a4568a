"""A plan that is compared with another one."""
from __future__ import annotations

from collections.abc import Iterable, Mapping
from dataclasses import dataclass, field
from itertools import pairwise
from typing import Any

from desk.neighbours import count_neighbours
from desk.plans import StatedBlock
from desk.times import format_minute
from desk.town import Town

Found = dict[str, Any]


@dataclass(frozen=True, eq=False)
class Side:
    """A plan that is compared: what `check` says of it, its blocks by their names, and the minutes of the trips that run.

    `counts` has its neighbours and its waiting, where they are told. `own` has the name in the feed of each trip that is called by
    another one here, as of one that is compared with a trip of another day.
    """

    title: str
    town: Town
    verdict: Found
    blocks: dict[str, StatedBlock]
    times: dict[str, tuple[int, int]]
    block_of: dict[str, str]
    counts: dict[str, int] = field(default_factory=dict)
    own: dict[str, str] = field(default_factory=dict)

    def key(self, name: str) -> tuple[object, ...]:
        """What a block does. Two blocks are the same where it is equal."""
        block = self.blocks[name]
        return tuple((trip, empty, self.times.get(trip)) for trip, empty in zip(block.trips, block.deadheads))

    def leaves(self, name: str) -> str:
        """The minute in which a block leaves the depot."""
        block = self.blocks[name]
        return format_minute(self.times[block.trips[0]][0] - block.deadheads[0]) if block.trips[0] in self.times else "?"

    def ends(self, name: str) -> str:
        """The minute in which the last trip of a block ends."""
        trip = self.blocks[name].trips[-1]
        return format_minute(self.times[trip][1]) if trip in self.times else "?"


def counts_of(town: Town, blocks: Iterable[StatedBlock], times: Mapping[str, tuple[int, int]]) -> dict[str, int]:
    """The neighbours of a plan, and the minutes that vehicles wait in it, as the figures have them. A misfit is no wait."""
    blocks = list(blocks)
    departs = {trip: minutes[0] for trip, minutes in times.items()}
    counts = count_neighbours([block.trips for block in blocks], town.day(), departs)
    waits = (times[after][0] - times[before][1] - empty for block in blocks
             for (before, after), empty in zip(pairwise(block.trips), block.deadheads[1:]) if before in times and after in times)
    return counts | {"waiting": sum(max(minutes, 0) for minutes in waits)}
