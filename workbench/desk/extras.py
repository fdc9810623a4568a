"""Extra trips as an agency's feed has trips: their routes and headsigns by `extras.csv`, and stops for their terminals."""
from __future__ import annotations

from collections import Counter
from typing import NamedTuple

from desk.day import Day
from desk.hints.names import Known, advice, shown
from desk.hints.trips import TripFile
from desk.plans import Ride
from desk.records import first_records, open_records
from desk.town import Town

FILE = "extras.csv"
COLUMNS = ("name", "route_id", "headsign")
"""The columns of the file, one record for an extra trip."""


class Extra(NamedTuple):
    """What stands in the feed for an extra trip, beside its times."""

    route: str
    headsign: str
    first_stop: str
    last_stop: str


def listed_extras(day: Day) -> tuple[dict[str, Extra], dict[str, str]]:
    """The extra trips of a plan that can stand in the feed, and why others cannot."""
    rides = {ride.name: ride for block in day.blocks for ride in block.rides if ride.trip is None}
    if not rides:
        return {}, {}
    town, listed = day.town, read_listed(day.town)
    routes = first_records(town.agency_path("routes.txt"), "route_id")
    trips = TripFile(town, rides)
    found, missing = {}, {}
    for name, ride in rides.items():
        stops = _stop_of(town, ride, True), _stop_of(town, ride, False)
        why = _why_not(town, name, listed, routes, trips)
        if not why and not all(stops):
            why = f"{shown(town.of_post(ride.start if not stops[0] else ride.end))} has no stop of the feed"
        if why:
            missing[name] = why
        else:
            found[name] = Extra(*listed[name], *stops)
    return found, missing


def read_listed(town: Town) -> dict[str, tuple[str, str]]:
    """The route and the headsign of each extra trip that `extras.csv` has; none where it is not there."""
    if not town.has(FILE):
        return {}
    with open_records(town.path(FILE)) as records:
        name, route = (records.column(column) for column in COLUMNS[:2])
        headsign = records.find(COLUMNS[2])
        return {fields[name]: (fields[route], "" if headsign is None else fields[headsign]) for _, fields in records}


def _why_not(town: Town, name: str, listed: dict[str, tuple[str, str]], routes: dict[str, int], trips: TripFile) -> str:
    """Why an extra trip cannot stand in the feed, as far as its names tell; empty where it can."""
    if town.date is None:
        return "desk.toml has no date, and an extra trip runs on one"
    if name not in listed:
        return f"{FILE} has no record of it: write `{name},ROUTE,HEADSIGN` below `{','.join(COLUMNS)}`"
    route = listed[name][0]
    if routes and route not in routes:
        near = advice(route, Known(routes))
        return f"{near.text}" if near else f"{shown(route)} is no route of routes.txt"
    return "a trip of another day has this name" if trips.exists(name) else ""


def _stop_of(town: Town, ride: Ride, first: bool) -> str:
    """The stop at which most trips of the day begin, or end, at a terminal of an extra trip; else any stop of that, or none."""
    terminal = town.of_post(ride.start if first else ride.end)
    begin = Counter(trip.first_stop for trip in town.day()).most_common()
    end = Counter(trip.last_stop for trip in town.day()).most_common()
    ends = [stop for stop, _ in (begin + end if first else end + begin)]
    return next((stop for stop in (*ends, *town.terminals, *town.stops) if town.terminal(stop) == terminal), "")
