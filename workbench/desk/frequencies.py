"""Trips that `frequencies.txt` repeats, each repetition as a trip of its own.

A trip T that starts every 30 minutes from 06:00 to before 07:00 becomes `T@06:00:00` and `T@06:30:00`, with its times moved
so that it leaves its first stop then. T itself goes. The rules are those of the GTFS reference: a period ends before its
`end_time`, times after midnight are 24:00:00 and more, and periods of one trip do not overlap.
"""
from __future__ import annotations

from collections.abc import Iterable, Iterator
from contextlib import contextmanager
from dataclasses import dataclass, field
from itertools import chain
from pathlib import Path
from typing import BinaryIO

from desk.errors import DeskError
from desk.limits import MOST_BYTES
from desk.records import Records, open_records, record_text
from desk.times import MOST_SECONDS, format_time, parse_time
from desk.town import sequence_in, time_in

MOST_REPEATS = 1_000_000
"""The most trips that are made of patterns."""

Starts = dict[str, list[range]]
"""When each pattern starts, in seconds: a range for each of its periods."""


@dataclass(frozen=True, slots=True)
class Period:
    """A record of `frequencies.txt`: when its trip starts, in seconds."""

    record: int
    starts: range
    exact: bool


@dataclass
class Repeats:
    """What became of the trips that are repeated: how many patterns, how many trips, and what was left as it stands."""

    patterns: int = 0
    trips: int = 0
    inexact: set[str] = field(default_factory=set)
    left: list[str] = field(default_factory=list)


def expand(agency: Path, room: Path) -> Repeats:
    """Writes `trips.txt` and `stop_times.txt` of the agency into the room, with a trip for each repetition.

    Where there is no repetition, neither is written.
    """
    periods = read_periods(agency / "frequencies.txt")
    leaves = _first_departures(agency / "stop_times.txt", set(periods)) if periods else {}
    starts = {name: [period.starts for period in periods[name]] for name, seconds in leaves.items() if seconds is not None}
    if sum(len(times) for ranges in starts.values() for times in ranges) > MOST_REPEATS:
        raise DeskError(f"frequencies.txt: it repeats trips more than {MOST_REPEATS:,} times")
    repeats = Repeats(left=[f"trip {name} has no time at a first stop in stop_times.txt, so it is not repeated"
                            for name, seconds in leaves.items() if seconds is None])
    met = _write_trips(agency / "trips.txt", room / "trips.txt", starts, repeats)
    repeats.left += [f"trip {name} is not in trips.txt" for name in sorted(set(starts) - met)]
    if met:
        _write_times(agency / "stop_times.txt", room / "stop_times.txt", {name: starts[name] for name in met}, leaves)
    else:
        (room / "trips.txt").unlink()
    repeats.patterns = len(met)
    repeats.inexact = {name for name in met if not all(period.exact for period in periods[name])}
    return repeats


def read_periods(path: Path) -> dict[str, list[Period]]:
    """The periods of each trip by their starts. A field that is not in form, and periods that overlap, are a DeskError."""
    periods: dict[str, list[Period]] = {}
    with open_records(path) as records:
        columns = [records.column(name) for name in ("trip_id", "start_time", "end_time", "headway_secs")]
        exact = records.find("exact_times")
        for number, fields in records:
            name, first, end, headway = (fields[at] for at in columns)
            form = first, end, headway, "" if exact is None else fields[exact]
            periods.setdefault(name, []).append(_period(f"{path.name} record {number}", number, form))
    for name, of_trip in periods.items():
        of_trip.sort(key=lambda period: period.starts.start)
        _refuse_overlap(path.name, name, of_trip)
    return periods


def _refuse_overlap(file: str, name: str, periods: list[Period]) -> None:
    """A DeskError where two periods of a trip overlap, which the reference forbids. One may begin as another ends."""
    for before, after in zip(periods, periods[1:]):
        if after.starts.start < before.starts.stop:
            raise DeskError(f"{file} record {after.record}: the period of trip {name} overlaps that of record "
                            f"{before.record}")


def _period(place: str, number: int, fields: tuple[str, str, str, str]) -> Period:
    """The period of a record. `place` names the record in messages."""
    first, end = parse_time(fields[0]), parse_time(fields[1])
    headway, exact = fields[2].strip(" "), fields[3].strip(" ")
    if first is None:
        raise DeskError(f"{place}: bad start_time")
    if end is None:
        raise DeskError(f"{place}: bad end_time")
    if end <= first:
        raise DeskError(f"{place}: end_time is not after start_time; times after midnight are written as 24:00:00 and more")
    if not 1 <= len(headway) <= 6 or not (headway.isascii() and headway.isdecimal()) or int(headway) == 0:
        raise DeskError(f"{place}: bad headway_secs")
    if exact not in ("", "0", "1"):
        raise DeskError(f"{place}: bad exact_times")
    return Period(number, range(first, end, int(headway)), exact == "1")


def repeat_name(name: str, start: int) -> str:
    """The name of the repetition of a trip that starts at this second."""
    return f"{name}@{format_time(start)}"


def _first_departures(path: Path, names: set[str]) -> dict[str, int | None]:
    """The second at which each of these trips leaves its first stop; None where it has no time there, or no stop."""
    first: dict[str, tuple[int, int | None]] = {}
    with open_records(path) as records:
        trip, sequence, departs, arrives = (
            records.column(name) for name in ("trip_id", "stop_sequence", "departure_time", "arrival_time"))
        for number, fields in records:
            if fields[trip] not in names:
                continue
            place = sequence_in(path.name, number, fields[sequence])
            if fields[trip] not in first or place < first[fields[trip]][0]:
                first[fields[trip]] = place, time_in(path.name, number, fields[departs], fields[arrives])
    return {name: first[name][1] if name in first else None for name in sorted(names)}


def _write_trips(source: Path, target: Path, starts: Starts, repeats: Repeats) -> set[str]:
    """Writes `trips.txt` with the repetitions, and gives the patterns that it has.

    The `block_id` of a repetition is empty: that of the pattern is not that of one vehicle.
    """
    met: set[str] = set()
    with open_records(source) as records, written(target) as file:
        trip, block = records.column("trip_id"), records.find("block_id")
        file.put(records.header)
        for number, fields in records:
            name = fields[trip]
            if name not in starts:
                _refuse_name(f"{source.name} record {number}", name, starts)
                file.put(fields)
                continue
            met.add(name)
            if block is not None:
                fields[block] = ""
            file.refuse_repeats([replaced(fields, trip, repeat_name(name, starts[name][0].start))], starts[name])
            for start in chain(*starts[name]):
                file.put(replaced(fields, trip, repeat_name(name, start)))
                repeats.trips += 1
    return met


def replaced(fields: list[str], at: int, field: str) -> list[str]:
    """The fields of a record with another one at this place."""
    return [*fields[:at], field, *fields[at + 1:]]


def _refuse_name(place: str, name: str, starts: Starts) -> None:
    """A DeskError where a trip has a name that a repetition may have."""
    pattern, _, time = name.rpartition("@")
    if pattern in starts and parse_time(time) is not None:
        raise DeskError(f"{place}: trip {name} has the name of a repetition of trip {pattern}")


def _write_times(source: Path, target: Path, starts: Starts, leaves: dict[str, int | None]) -> None:
    """Writes `stop_times.txt` with the rows of the repetitions in place of those of their patterns."""
    with open_records(source) as records, written(target) as file:
        trip = records.column("trip_id")
        times = records.column("arrival_time"), records.column("departure_time")
        file.put(records.header)
        for name, rows in _runs(records, trip, starts):
            if name in starts:
                first, *_ = starts[name]
                file.refuse_repeats(list(_moved(rows, trip, times, [first[:1]], leaves[name] or 0)), starts[name])
                rows = _moved(rows, trip, times, starts[name], leaves[name] or 0)
            for fields in rows:
                file.put(fields)


def _runs(records: Records, trip: int, starts: Starts) -> Iterator[tuple[str, list[list[str]]]]:
    """The rows of a pattern that follow on one another as a list, with its name; each other row as a list of its own."""
    run: list[list[str]] = []
    for _, fields in records:
        if run and run[0][trip] != fields[trip]:
            yield run[0][trip], run
            run = []
        if fields[trip] in starts:
            run.append(fields)
        else:
            yield fields[trip], [fields]
    if run:
        yield run[0][trip], run


def _moved(rows: list[list[str]], trip: int, times: Iterable[int], starts: list[range], leaves: int) -> Iterator[list[str]]:
    """The rows of a pattern for each of its starts, with its times moved, none of them to before 00:00:00."""
    seconds = [[(at, parse_time(fields[at])) for at in times] for fields in rows]
    for start in chain(*starts):
        for fields, of_row in zip(rows, seconds):
            copy = fields.copy()
            copy[trip] = repeat_name(fields[trip], start)
            for at, time in of_row:
                if time is not None:
                    copy[at] = _moved_time(copy[trip], time + start - leaves)
            yield copy


def _moved_time(name: str, seconds: int) -> str:
    """The time of a row of a repetition."""
    if seconds > MOST_SECONDS:
        raise DeskError(f"frequencies.txt: trip {name} runs past {format_time(MOST_SECONDS)}")
    return format_time(max(0, seconds))


class Written:
    """A file of the room that records are written into, of at most as many bytes as the program reads."""

    def __init__(self, name: str, file: BinaryIO) -> None:
        self.name = name
        self.file = file
        self.left = MOST_BYTES

    def put(self, fields: list[str]) -> None:
        """Writes a record, where there is room for it."""
        record = _bytes_of(fields)
        self.refuse(len(record))
        self.left -= len(record)
        self.file.write(record)

    def refuse_repeats(self, rows: list[list[str]], starts: list[range]) -> None:
        """A DeskError where there is no room for these rows at each of these starts, before one of them is written. All take as
        many bytes, since each name and each time has as many digits."""
        self.refuse(sum(len(_bytes_of(fields)) for fields in rows) * sum(map(len, starts)))

    def refuse(self, size: int) -> None:
        """A DeskError where there is no room for so many bytes."""
        if size > self.left:
            raise DeskError(f"frequencies.txt: {self.name} with all repetitions has more than {MOST_BYTES:,} bytes")


@contextmanager
def written(path: Path) -> Iterator[Written]:
    """A file of the room to write records into."""
    with open(path, "wb") as file:
        yield Written(path.name, file)


def _bytes_of(fields: list[str]) -> bytes:
    """A record as it is written, with its bytes that are not UTF-8."""
    return record_text(fields).encode("utf-8", "surrogateescape")
