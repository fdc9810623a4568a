"""Terminals drafted from the agency's stops: which stops are one place for a vehicle."""
from __future__ import annotations

import statistics
from collections import Counter
from collections.abc import Callable, Iterable, Mapping, Sequence
from dataclasses import dataclass

from desk.records import is_utf8, record_text
from desk.stops import Point, Stop

NEAR = 200.0
"""Stops of one name are one terminal where they lie within so many metres of the first one, or of the station."""

FAR, MUCH_FARTHER = 15_000.0, 4
"""A terminal is far from all others by so many metres, and so many times as far from the nearest one as is usual."""


@dataclass
class Terminal:
    """A terminal: its stops that are used, its name, and where it lies. `key` is its station, or its first stop."""

    key: str
    name: str
    point: Point | None
    stops: list[str]
    by_station: bool


def draft_terminals(ends: Iterable[str], stops: Mapping[str, Stop]) -> list[Terminal]:
    """The terminals of these stops: by their stations, else by one name and near to one another, else each stop its own.

    A stop that the agency does not tell of is a terminal of its own, without coordinates.
    """
    known = [stops.get(name) or Stop(name, "", None, "") for name in dict.fromkeys(ends)]
    terminals: dict[str, Terminal] = {}
    of_name: dict[str, list[Terminal]] = {}
    for stop in sorted(known, key=lambda stop: not stop.parent):
        terminal = None
        if not stop.parent:
            terminal = next((near for near in of_name.get(plain(stop.name), []) if _is_near(near, stop)), None)
        if terminal is None:
            key = station_of(stop, stops)
            if key not in terminals:
                terminals[key] = _new_terminal(key, stop, stops)
                of_name.setdefault(terminals[key].name, []).append(terminals[key])
            terminal = terminals[key]
        terminal.stops.append(stop.stop_id)
    _name_distinct(list(terminals.values()), stops)
    return list(terminals.values())


def station_of(stop: Stop, stops: Mapping[str, Stop]) -> str:
    """The station of a stop, which is the last of its parents; a stop without one is its own."""
    met = {stop.stop_id}
    name = stop.parent or stop.stop_id
    while name in stops and stops[name].parent and name not in met:
        met.add(name)
        name = stops[name].parent
    return name


def plain(name: str) -> str:
    """A name on one line and in UTF-8, with single spaces. What is not UTF-8 is taken as Windows-1252."""
    if not is_utf8(name):
        name = name.encode("utf-8", "surrogateescape").decode("cp1252", "replace")
    return " ".join("".join(letter if letter.isprintable() else " " for letter in name).split())


def terminals_text(terminals: Iterable[Terminal]) -> str:
    """The text of `terminals.csv`."""
    rows = [(stop, terminal.name) for terminal in terminals for stop in terminal.stops]
    return "stop_id,terminal\n" + "".join(map(record_text, rows))


def distinct(name: str, key: str, is_taken: Callable[[str], bool]) -> str:
    """The name, or where it is taken the name with the key, or with the key and a number."""
    candidate, number = name, 1
    while is_taken(candidate):
        candidate = f"{name} ({key})" if number == 1 else f"{name} ({key}, {number})"
        number += 1
    return candidate


def _is_near(terminal: Terminal, stop: Stop) -> bool:
    """Whether a stop lies near to a terminal."""
    return terminal.point is not None and stop.point is not None and terminal.point.is_within(NEAR, stop.point)


def _new_terminal(key: str, stop: Stop, stops: Mapping[str, Stop]) -> Terminal:
    """The terminal of a stop, without stops as yet. What its station does not say, the stop does."""
    station = stops.get(key, stop)
    name = plain(station.name) or plain(stop.name) or plain(key) or "Terminal"
    return Terminal(key, name, station.point or stop.point, [], bool(stop.parent))


def _name_distinct(terminals: list[Terminal], stops: Mapping[str, Stop]) -> None:
    """Gives each terminal a name that no other terminal has, and no stop that is not its own."""
    shared = Counter(terminal.name for terminal in terminals)
    names: set[str] = set()
    for terminal in terminals:
        own = set(terminal.stops)
        terminal.name = distinct(terminal.name, plain(terminal.key), lambda name, own=own: (
            shared[name] > 1 or name in names or (name in stops and name not in own)))
        names.add(terminal.name)


def far_terminals(terminals: Sequence[Terminal]) -> list[tuple[str, float]]:
    """The terminals that lie far from all others, each with the metres to the nearest one. Perhaps their coordinates are wrong."""
    points = [(terminal.name, terminal.point) for terminal in terminals if terminal.point]
    if len(points) < 3:
        return []
    nearest = [(name, min(point.metres_to(other) for number, (_, other) in enumerate(points) if number != at))
               for at, (name, point) in enumerate(points)]
    usual = statistics.median(metres for _, metres in nearest)
    return [(name, metres) for name, metres in nearest if metres >= FAR and metres >= MUCH_FARTHER * usual]
