"""Each trip of a feed by its rows in `stop_times.txt`: where it begins and ends, and why the program would refuse it."""
from __future__ import annotations

from array import array
from collections.abc import Collection
from dataclasses import dataclass
from pathlib import Path

from desk.records import is_utf8, is_wide, open_records
from desk.times import format_time, is_no_time, parse_time
from desk.town import parse_sequence

BAD = -1
"""A number or a time that is not of its grammar."""

BEYOND = 1 << 62
"""A sequence above all others."""


End = tuple[str, "int | None", "int | None"]
"""The stop of a row, and its arrival and departure in seconds; None where it has no such time."""


@dataclass(slots=True)
class Rows:
    """What the rows of a trip say. `why` is empty where the program takes them; `record` is a row that it refuses.

    `is_wide` says that one of them has more fields than the header.
    """

    count: int = 0
    first: int = BEYOND
    last: int = BAD
    start: End = "", None, None
    end: End = "", None, None
    is_ascending: bool = True
    why: str = ""
    record: int | None = None
    is_wide: bool = False

    @property
    def departs(self) -> int | None:
        """When the trip departs: as its first row departs, or where this has no such time as it arrives."""
        return self.start[1] if self.start[2] is None else self.start[2]

    @property
    def arrives(self) -> int | None:
        """When the trip arrives: as its last row arrives, or where this has no such time as it departs."""
        return self.end[2] if self.end[1] is None else self.end[1]

    def refuse(self, why: str, record: int | None = None) -> None:
        """Takes note of why the trip is refused, where nothing is known before."""
        if not self.why:
            self.why, self.record = why, record


class Survey:
    """The rows of all trips of these names.

    `strays` counts records of other trips for which the program refuses the file, and `trailing` those with empty fields behind those
    of the header. `is_utf8` says whether all stops of the trips are.
    """

    def __init__(self, path: Path, names: Collection[str]) -> None:
        self.path = path
        self.trips = {name: Rows() for name in names}
        self.strays = self.trailing = 0
        self.is_utf8 = True
        self._read()
        self._find_twice([name for name, rows in self.trips.items() if not rows.is_ascending and not rows.why])
        for rows in self.trips.values():
            _judge(rows)

    def _read(self) -> None:
        """Reads the file once."""
        sequences, times, stops, rows_of = Sequences(), Times(), Stops(), self.trips.get
        with open_records(self.path) as records:
            trip, arrives, departs, stop, place = (
                records.column(name) for name in ("trip_id", "arrival_time", "departure_time", "stop_id", "stop_sequence"))
            width = len(records.header)
            for number, fields in records:
                rows = rows_of(fields[trip])
                if len(fields) > width:
                    self.trailing += not is_wide(fields, width)
                if rows is None:
                    self.strays += is_wide(fields, width) or not is_utf8(fields[trip])
                    continue
                sequence, arrival, departure = sequences[fields[place]], times[fields[arrives]], times[fields[departs]]
                if is_wide(fields, width) or sequence == BAD or arrival == BAD or departure == BAD or stops[fields[stop]]:
                    rows.refuse(_why(number, fields, width, stops[fields[stop]], (sequence, arrival)), number)
                    rows.is_wide |= is_wide(fields, width)
                rows.count += 1
                if sequence > rows.last:
                    rows.last, rows.end = sequence, (fields[stop], arrival, departure)
                else:
                    rows.is_ascending = False
                if sequence < rows.first:
                    rows.first, rows.start = sequence, (fields[stop], arrival, departure)
        self.is_utf8 = all(map(is_utf8, stops))

    def _find_twice(self, names: list[str]) -> None:
        """Finds the trips with one sequence twice, among those whose rows are in another order."""
        if not names:
            return
        numbers = {name: array("i") for name in names}
        sequences = Sequences()
        with open_records(self.path) as records:
            trip, place = records.column("trip_id"), records.column("stop_sequence")
            for _, fields in records:
                if fields[trip] in numbers:
                    numbers[fields[trip]].append(sequences[fields[place]])
        for name, of_trip in numbers.items():
            ordered = sorted(of_trip)
            twice = next((one for one, other in zip(ordered, ordered[1:]) if one == other), None)
            if twice is not None:
                self.trips[name].refuse(f"two rows of stop_times.txt have its stop_sequence {twice}")


def _judge(rows: Rows) -> None:
    """Finds why a trip as a whole is refused."""
    if rows.count < 2:
        rows.refuse(f"it has {'one row' if rows.count else 'no row'} in stop_times.txt")
    elif rows.departs is None:
        rows.refuse("it has no time at its first stop")
    elif rows.arrives is None:
        rows.refuse("it has no time at its last stop")
    elif rows.arrives <= rows.departs:
        rows.refuse(f"it departs at {format_time(rows.departs)} and arrives at {format_time(rows.arrives)}")


def _why(number: int, fields: list[str], width: int, wrong_stop: str, found: tuple[int, int | None]) -> str:
    """Why a row is refused, of which the sequence and the arrival were found."""
    begin = f"record {number} of stop_times.txt has"
    if is_wide(fields, width):
        return f"{begin} {len(fields)} fields and the header {width}"
    if wrong_stop:
        return f"{begin} {wrong_stop}"
    column = "stop_sequence" if found[0] == BAD else "arrival_time" if found[1] == BAD else "departure_time"
    return f"{begin} a bad {column}"


class Sequences(dict[str, int]):
    """The value of each field of a sequence that was met."""

    def __missing__(self, text: str) -> int:
        sequence = parse_sequence(text)
        self[text] = BAD if sequence is None else sequence
        return self[text]


class Times(dict[str, "int | None"]):
    """The seconds of each field of a time that was met; None for an empty one."""

    def __missing__(self, text: str) -> int | None:
        seconds = parse_time(text)
        self[text] = None if is_no_time(text) else BAD if seconds is None else seconds
        return self[text]


class Stops(dict[str, str]):
    """What is wrong with each stop that was met; empty where nothing is."""

    def __missing__(self, stop: str) -> str:
        self[stop] = "no stop_id" if not stop else "" if is_utf8(stop) else "a stop_id that is not UTF-8"
        return self[stop]
