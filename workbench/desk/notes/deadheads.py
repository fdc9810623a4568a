"""The records of `deadheads.csv`, as far as they are in form."""
from __future__ import annotations

from pathlib import Path
from typing import NamedTuple

from desk.records import open_records


class Way(NamedTuple):
    """A record of `deadheads.csv`."""

    record: int
    start: str
    end: str
    minutes: int


def read_ways(path: Path) -> list[Way]:
    """The records whose minutes are a number; none where the file is not there."""
    if not path.is_file():
        return []
    ways = []
    with open_records(path) as records:
        start, end, minutes = (records.column(name) for name in ("from", "to", "minutes"))
        for number, fields in records:
            digits = fields[minutes].strip(" ")
            if 1 <= len(digits) <= 4 and digits.isascii() and digits.isdecimal():
                ways.append(Way(number, fields[start], fields[end], int(digits)))
    return ways
