"""Which rows of `stop_times.txt` make a trip that is refused."""
from __future__ import annotations

from collections import Counter
from pathlib import Path
from typing import NamedTuple

from desk.hints.names import shown
from desk.records import open_records
from desk.times import is_no_time
from desk.town import sequence_in


class Row(NamedTuple):
    """A row of a trip. The fields of its times are as they stand."""

    sequence: int
    record: int
    arrives: str
    departs: str


def trip_hints(path: Path, trip: str, what: str) -> list[str]:
    """Which rows a trip has, and what is wrong with them."""
    rows = rows_of(path, trip)
    begin = f"{path.name}: trip {shown(trip)}"
    if what == "has too few stops":
        has = f"one row, record {rows[0].record}" if rows else "no row"
        return [f"{begin} has {has}. A trip has two rows at least. The agency mends it, or its service is left out."]
    if not rows:
        return []
    if what == "has a sequence twice":
        return _twice(begin, rows)
    first, last = rows[0], rows[-1]
    if what == "has no time at an end":
        empty = [row for row in (first, last) if is_no_time(row.arrives) and is_no_time(row.departs)]
        return [f"{begin} has no time in record {empty[0].record}, where it begins or ends. Write one there."] if empty else []
    departs = first.arrives if is_no_time(first.departs) else first.departs
    arrives = last.departs if is_no_time(last.arrives) else last.arrives
    return [f"{begin} departs at {shown(departs)}, record {first.record}, and arrives at {shown(arrives)}, record {last.record}. "
            "After midnight the hours go on, as 24:05:00."]


def rows_of(path: Path, trip: str) -> list[Row]:
    """The rows of a trip by their sequence."""
    rows = []
    with open_records(path) as records:
        name, arrives, departs, place = (
            records.column(column) for column in ("trip_id", "arrival_time", "departure_time", "stop_sequence"))
        for number, fields in records:
            if fields[name] == trip:
                rows.append(Row(sequence_in(path.name, number, fields[place]), number, fields[arrives], fields[departs]))
    return sorted(rows)


def _twice(begin: str, rows: list[Row]) -> list[str]:
    """Which records have one sequence."""
    counts = Counter(row.sequence for row in rows)
    records = [str(row.record) for row in rows if counts[row.sequence] > 1]
    found = f"{begin} has one `stop_sequence` in the records {' and '.join(records[:2])}"
    return [f"{found}. Each row has a number of its own."] if records else []
