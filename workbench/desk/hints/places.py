"""Which names are places of the day or of other days, and what another name may mean."""
from __future__ import annotations

from collections.abc import Sequence
from functools import cached_property

from desk.hints.names import CUTOFF, Finding, Known, advice, shown
from desk.town import DayTrip, Town


class Places:
    """The places of a town. Those of the day are terminals at which its trips begin or end."""

    def __init__(self, town: Town, trips: Sequence[DayTrip]) -> None:
        self.town = town
        self.posts = {post for trip in trips for post in (trip.start, trip.end)}
        self.day = {town.terminal(stop) for trip in trips for stop in (trip.first_stop, trip.last_stop)}
        self.terminals = set(town.terminals.values())

    @cached_property
    def stations(self) -> dict[str, str]:
        """The terminal of each station of `stops.txt` that is the parent of a platform with a terminal."""
        return {stop.parent: self.town.terminals[name] for name, stop in self.town.stops.items()
                if stop.parent and name in self.town.terminals}

    @cached_property
    def _by_name(self) -> dict[str, str]:
        """The terminal of each name that `stops.txt` gives to a stop in words."""
        return {stop.name: self.stations.get(name) or self.town.terminal(name) for name, stop in self.town.stops.items() if stop.name}

    @cached_property
    def _terminals(self) -> Known:
        """The names of terminals, those of the day first."""
        return Known([*sorted(self.day), *sorted(self.terminals)])

    @cached_property
    def _stops(self) -> Known:
        """The stops that are places of their own."""
        return Known(stop for stop in self.town.stops if stop not in self.town.terminals and stop not in self.stations)

    def about(self, name: str, cutoff: float = CUTOFF) -> Finding | None:
        """What a name may mean that is no place of the day; None where it is a place of some day or nothing is known."""
        if name in self.day or name in self.terminals:
            return None
        if name in self.town.terminals:
            terminal = self.town.terminals[name]
            return Finding(f"{shown(name)} is a platform of the terminal {shown(terminal)}", f"Write {shown(terminal)}")
        if name in self.stations:
            terminal = self.stations[name]
            return Finding(f"{shown(name)} is a station whose platforms are the terminal {shown(terminal)}",
                           f"Write {shown(terminal)}")
        if name in self.town.stops:
            return None
        if self._terminals.alike(name) is None and self._stops.alike(name) is not None:
            return advice(name, self._stops)
        if self._terminals.alike(name) is None and name in self._by_name:
            terminal = self._by_name[name]
            return Finding(f"{shown(name)} is the name of a stop in stops.txt, and its place is {shown(terminal)}",
                           f"Write {shown(terminal)}")
        return advice(name, self._terminals, cutoff)

    def is_known(self, name: str) -> bool:
        """Whether a name is that of a place of some day."""
        return name in self.day or name in self.terminals or (name in self.town.stops and self.about(name) is None)

    def about_post(self, name: str) -> Finding | None:
        """Why the program does not know the place of an extra trip. Where vehicles are of classes it knows posts alone."""
        terminal = name
        if self.town.table("classes"):
            terminal = name if name in self.day else name.rpartition("/")[0] or name
            posts = sorted(post for post in self.posts if post.rpartition("/")[0] == terminal)
            if posts and name not in posts:
                return Finding(f"vehicles are of classes, and {shown(name)} is no terminal with a class of the day",
                               f"Write {' or '.join(map(shown, posts[:4]))}")
        if terminal not in self.day and self.is_known(terminal):
            return Finding(f"no trip of the day begins or ends at {shown(terminal)}",
                           "Name it in deadheads.csv, or choose another place")
        return self.about(terminal)
