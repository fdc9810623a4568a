"""Trips of the day without `block_id`: those that `new` has made of a repeated trip, and those of the agency."""
from __future__ import annotations

from typing import NamedTuple

from desk.hints.trips import TripFile
from desk.records import first_records
from desk.times import parse_time
from desk.town import Town


class Unblocked(NamedTuple):
    """How many trips of the day have no `block_id`: repetitions of a trip of `frequencies.txt`, and others."""

    repeated: int
    others: int

    @property
    def text(self) -> str:
        """The two numbers in words."""
        repeated = f"{self.repeated} of them repeat a trip of frequencies.txt"
        if not self.others:
            return "all of them repeat a trip of frequencies.txt"
        return f"{repeated}, and {self.others} have none from the agency" if self.repeated else "the agency gives them none"


def unblocked(town: Town, trips: TripFile | None = None) -> Unblocked:
    """Counts the trips of the day without `block_id`."""
    trips = TripFile(town) if trips is None else trips
    patterns = first_records(town.agency_path("frequencies.txt"), "trip_id")
    records = set(trips.without_block)
    names = [name for name, record in trips.selected.items() if record in records]
    repeated = sum(_is_repeated(name, patterns) for name in names)
    return Unblocked(repeated, len(names) - repeated)


def _is_repeated(name: str, patterns: dict[str, int]) -> bool:
    """Whether a name is that of a repetition, `ID@06:30:00`."""
    pattern, _, time = name.rpartition("@")
    return pattern in patterns and parse_time(time) is not None
