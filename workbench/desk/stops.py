"""The agency's stops: names, coordinates, and the stations that they are part of."""
from __future__ import annotations

import math
from dataclasses import dataclass
from pathlib import Path

from desk.records import open_records

EARTH_RADIUS = 6_371_000.0
"""The mean radius of the earth in metres."""
DEGREE = 111_000.0
"""A degree of latitude in metres, rounded down."""


@dataclass(frozen=True, slots=True)
class Point:
    """A place on the earth, in degrees."""

    latitude: float
    longitude: float

    def metres_to(self, other: Point) -> float:
        """The length of the great circle to another place."""
        first, second = math.radians(self.latitude), math.radians(other.latitude)
        across = math.radians(other.longitude - self.longitude)
        haversine = (math.sin((second - first) / 2) ** 2
                     + math.cos(first) * math.cos(second) * math.sin(across / 2) ** 2)
        return 2 * EARTH_RADIUS * math.asin(min(1.0, math.sqrt(haversine)))

    def is_within(self, metres: float, other: Point) -> bool:
        """Whether another place is at most so many metres away. Latitudes are compared first, which costs less."""
        return abs(self.latitude - other.latitude) * DEGREE <= metres and self.metres_to(other) <= metres


@dataclass(frozen=True, slots=True)
class Stop:
    """A record of `stops.txt`. `point` is None where it has no coordinates in form, and `parent` is empty without one."""

    stop_id: str
    name: str
    point: Point | None
    parent: str


def parse_point(latitude: str, longitude: str) -> Point | None:
    """The place of two numbers of degrees.

    None where one is not in form or out of range, and for 0, 0, which agencies write for no coordinates.
    """
    try:
        point = Point(float(latitude), float(longitude))
    except ValueError:
        return None
    in_range = abs(point.latitude) <= 90 and abs(point.longitude) <= 180
    return point if in_range and (point.latitude, point.longitude) != (0, 0) else None


def read_stops(path: Path) -> dict[str, Stop]:
    """The stops of a file by their `stop_id`, in the order of the file."""
    with open_records(path) as records:
        name = records.column("stop_id")
        others = [records.find(column) for column in ("stop_name", "stop_lat", "stop_lon", "parent_station")]
        stops: dict[str, Stop] = {}
        for _, fields in records:
            called, latitude, longitude, parent = ("" if at is None else fields[at] for at in others)
            stops[fields[name]] = Stop(fields[name], called, parse_point(latitude, longitude), parent)
        return stops
