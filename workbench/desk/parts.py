"""How a day of more trips than the program plans is parted: by agency, or by routes that share no terminal."""
from __future__ import annotations

import re
from collections import Counter
from collections.abc import Callable, Collection, Iterable
from typing import NamedTuple

from desk.limits import MOST_TRIPS
from desk.records import open_records
from desk.stations import distinct
from desk.town import Town

NOT_PARTED = {"agency": "all routes are of one agency", "routes": "all routes of the day are joined by common terminals"}
"""Why there is one part alone."""

MOST_SIZES = 8
"""Of how many parts the numbers of trips are told."""


class Part(NamedTuple):
    """A part of a day: a name that a folder may have, its routes, and how many trips of the day they have."""

    name: str
    routes: frozenset[str]
    trips: int


def by_agency(town: Town) -> list[Part]:
    """A part for each agency of `routes.txt`, the largest first. Routes without one are a part of their own."""
    agencies, counts = _agencies(town), _routes(town)
    routes: dict[str, set[str]] = {}
    for route in counts:
        routes.setdefault(agencies.get(route, ""), set()).add(route)
    taken: set[str] = set()
    parts = []
    for agency in sorted(routes):
        plain = re.sub(r"[^\w.-]+", "_", agency).strip("._") or "none"
        name = distinct(plain, "agency", lambda name: name in taken).replace(" ", "_")
        taken.add(name)
        parts.append(_part(counts, name, routes[agency]))
    return sorted(parts, key=lambda part: -part.trips)


def by_routes(town: Town) -> list[Part]:
    """As few parts as are found of routes that share no terminal on the day, none with more trips than are planned if possible."""
    counts = _routes(town)
    groups: list[set[str]] = []
    for group in sorted(_joined(town), key=lambda group: -_size(counts, group)):
        size = _size(counts, group)
        room = next((other for other in groups if _size(counts, other) + size <= MOST_TRIPS), None)
        if room is None:
            groups.append(set(group))
        else:
            room |= group
    if groups:
        groups[0] |= counts.keys() - set().union(*groups)
    return [_part(counts, str(number), group) for number, group in enumerate(groups, 1)]


WAYS: dict[str, Callable[[Town], list[Part]]] = {"agency": by_agency, "routes": by_routes}
"""The ways of parting a day."""


def proposals(town: Town, name: str) -> list[str]:
    """How a town of this name could be parted, each way on a line."""
    lines = []
    for way, parting in WAYS.items():
        parts = parting(town)
        sizes = ", ".join(f"{part.trips:,}" for part in parts[:MOST_SIZES]) + (", .." if len(parts) > MOST_SIZES else "")
        found = f"`./desk part {name} --by {way}` makes {len(parts)} towns, of {sizes} trips" if len(parts) > 1 else NOT_PARTED[way]
        lines.append(f"by {way}: {found}")
    return [*lines, "by garage: a town for each, whose trips.txt has the routes of that garage alone"]


def _part(counts: Counter[str], name: str, routes: Collection[str]) -> Part:
    """A part of these routes."""
    return Part(name, frozenset(routes), _size(counts, routes))


def _size(counts: Counter[str], routes: Iterable[str]) -> int:
    """How many trips of the day these routes have."""
    return sum(counts[route] for route in routes)


def _routes(town: Town) -> Counter[str]:
    """The routes of the trips of all days, each with how many trips of the day it has."""
    counts = Counter(trip.route_id for trip in town.day())
    with open_records(town.path("trips.txt")) as records:
        route = records.find("route_id")
        others = {"" if route is None else fields[route] for _, fields in records}
    counts.update(dict.fromkeys(others, 0))
    return counts


def _agencies(town: Town) -> dict[str, str]:
    """The agency of each route of `routes.txt`, where it names one."""
    path = town.agency_path("routes.txt")
    if not path.is_file():
        return {}
    with open_records(path) as records:
        route, agency = records.column("route_id"), records.find("agency_id")
        return {} if agency is None else {fields[route]: fields[agency] for _, fields in records}


def _joined(town: Town) -> list[set[str]]:
    """The routes of the day in groups, of which no two have a terminal in common."""
    group_of: dict[str, set[str]] = {}
    at: dict[str, str] = {}
    for trip in town.day():
        group = group_of.setdefault(trip.route_id, {trip.route_id})
        for stop in (trip.first_stop, trip.last_stop):
            other = group_of[at.setdefault(town.terminal(stop), trip.route_id)]
            if other is not group:
                group |= other
                group_of.update(dict.fromkeys(other, group))
    return list({id(group): group for group in group_of.values()}.values())
