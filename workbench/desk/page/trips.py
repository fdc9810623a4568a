"""The trips of a day as the page reads them: what the files say of each, and when it runs. Those are kept that are as they were seen."""
from __future__ import annotations

from collections.abc import Iterable

from desk.day import Day, Published
from desk.lines import LineNames
from desk.plans import Block, Ride
from desk.records import open_records
from desk.texts import Json
from desk.town import Town

Seen = tuple[Day, Json]
"""A day and its view."""


def shown_trips(day: Day, lines: LineNames, seen: Seen | None) -> list[Json]:
    """The trips of the files in their order, those that do not run too."""
    known = _known_trips(day, lines, seen) if seen else {}
    tolerances = _tolerances(day.town)
    early, late = (_number(day.town.settings.get(key)) for key in ("early", "late"))
    rides, trips = _rides(day.blocks), []
    for name, published in day.published.items():
        if name in known:
            trips.append(known[name])
            continue
        ride = rides.get(name)
        shown = _published(name, published, lines)
        shown["early"], shown["late"] = tolerances.get(name, (early, late)) if published.trip else (early, late)
        shown |= {"runs": ride is not None, "shift": ride.shift if ride else 0}
        if ride:
            shown |= {"departs": ride.departs, "arrives": ride.arrives, "ends": ride.ends}
        trips.append(shown)
    return trips


def _known_trips(day: Day, lines: LineNames, seen: Seen) -> dict[str, Json]:
    """The trips that are shown as they were seen: none of them is in a block that is another one, on either day."""
    before, view = seen
    same = {id(block) for block in before.blocks} & {id(block) for block in day.blocks}
    moved = _rides(block for block in (*before.blocks, *day.blocks) if id(block) not in same)
    return {name: shown for (name, published), shown in zip(before.published.items(), view["trips"])
            if name not in moved and day.published.get(name) is published and shown["line"] == lines.of(published.trip)}


def _rides(blocks: Iterable[Block]) -> dict[str, Ride]:
    """The rides of blocks by the names of their trips."""
    return {ride.name: ride for block in blocks for ride in block.rides}


def _published(name: str, published: Published, lines: LineNames) -> Json:
    """What the files say of a trip."""
    trip = published.trip
    shown: Json = {"id": name, "from": published.start, "to": published.end, "departs": published.departs, "arrives": published.arrives,
                   "ends": published.arrives, "extra": trip is None, "line": "", "headsign": "", "service": "", "published": None}
    if trip:
        shown |= {"line": lines.of(trip), "headsign": trip.headsign, "service": trip.service_id,
                  "published": [trip.departure, trip.arrival]}
    return shown


def _number(value: object) -> int:
    """A number of `desk.toml`, 0 without one."""
    return value if isinstance(value, int) else 0


def _tolerances(town: Town) -> dict[str, tuple[int, int]]:
    """By how many minutes each trip of `tolerances.csv` may be moved earlier and later."""
    if not town.has("tolerances.csv"):
        return {}
    with open_records(town.path("tolerances.csv")) as records:
        name, early, late = (records.column(column) for column in ("trip_id", "early", "late"))
        return {fields[name]: (int(fields[early]), int(fields[late])) for _, fields in records}
