"""What an edit changes of the trips: those that the page marks, and how many are in another block.

That is counted in two ways. By neighbours a trip is in another block where another trip runs before it or after it in its block. By
names it is so where its block has another name. Where blocks have numbers, one that goes gives all later ones another name. So names
mark a trip only where they stay.
"""
from __future__ import annotations

from desk.day import Day
from desk.neighbours import other_neighbours
from desk.texts import Json
from desk.texts_names import keeps_names


def marks(before: Day, after: Day) -> Json:
    """The trips that are marked after an edit, and how many there are of each kind."""
    same = {id(block) for block in before.blocks} & {id(block) for block in after.blocks}
    days = [[block for block in day.blocks if id(block) not in same] for day in (before, after)]
    was, now = ({ride.name: (block.name, ride.departs, ride.ends) for block in blocks for ride in block.rides} for blocks in days)
    both = was.keys() & now.keys()
    kinds = {"neighbours": other_neighbours(*([[ride.name for ride in block.rides] for block in blocks] for blocks in days)),
             "names": {trip for trip in both if was[trip][0] != now[trip][0]},
             "times": {trip for trip in both if was[trip][1:] != now[trip][1:]},
             "new": now.keys() - was.keys()}
    shown = [trips for kind, trips in kinds.items() if kind != "names" or keeps_names(after.town)]
    return {"trips": sorted(set().union(*shown)), **{kind: len(trips) for kind, trips in kinds.items()}}
