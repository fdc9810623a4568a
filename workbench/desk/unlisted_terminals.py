"""Terminals of the day that `depot.csv` does not list. The program takes their ways out and home for 0 minutes."""
from __future__ import annotations

from collections import Counter
from collections.abc import Iterable, Sequence
from typing import NamedTuple

from desk.answers import FeedRefused, tell
from desk.hints.names import shown
from desk.plans import read_boards
from desk.records import first_records
from desk.rooms import room_of, scripts_of
from desk.town import Town

MOST_TOLD = 10
"""How many terminals are told one by one below an answer."""

Ends = tuple[str, str]
"""The places from and to which a trip runs."""


class Unlisted(NamedTuple):
    """A terminal that `depot.csv` does not list: how many vehicles of the plan come there first, and go home from there."""

    terminal: str
    outs: int
    homes: int

    @property
    def text(self) -> str:
        """What the plan makes of it."""
        return (f"depot.csv has no record of {shown(self.terminal)}, so the ways out and home take 0 minutes: "
                f"{_counted(self.outs, 'pull-out ends', 'pull-outs end')} and "
                f"{_counted(self.homes, 'pull-in begins', 'pull-ins begin')} there")


def unlisted(town: Town, blocks: Iterable[Sequence[Ends]]) -> list[Unlisted]:
    """The terminals of a plan without a record, by the ends of the trips of each block. None where there is no `depot.csv`."""
    if not town.has("depot.csv"):
        return []
    listed = first_records(town.path("depot.csv"), "terminal")
    outs: Counter[str] = Counter()
    homes: Counter[str] = Counter()
    names: set[str] = set()
    for trips in blocks:
        outs[town.of_post(trips[0][0])] += 1
        homes[town.of_post(trips[-1][1])] += 1
        names.update(town.of_post(place) for ends in trips for place in ends)
    return [Unlisted(name, outs[name], homes[name]) for name in sorted(names) if name not in listed]


def unlisted_of_plan(town: Town) -> list[Unlisted]:
    """The terminals without a record, of the plan that the program makes in a room; none where it refuses the feed."""
    if not town.has("depot.csv"):
        return []
    with room_of(town, scripts_of(town)) as room:
        try:
            tell("joined", town.folder, room)
        except FeedRefused:
            return []
        boards = read_boards(room / "boards.csv").values()
    return unlisted(town, [[(leg.start, leg.end) for leg in legs if leg.trip] for legs in boards])


def told(found: list[Unlisted]) -> list[str]:
    """A line for each terminal, and how many more there are."""
    more = len(found) - MOST_TOLD
    lines = [f"{terminal.text}. Write one, if the depot does not lie there." for terminal in found[:MOST_TOLD]]
    return lines + ([f"depot.csv has no records of {more} more terminals of the day."] if more > 0 else [])


def _counted(number: int, one: str, many: str) -> str:
    """A number with what it counts."""
    return f"{number} {one if number == 1 else many}"
