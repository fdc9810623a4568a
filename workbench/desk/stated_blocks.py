"""`stated.csv` of a day type: the blocks that its plan stays near, in place of those of today, as busier day types have them.

The program reads them in `trips.txt`. So a room has a `trips.txt` in which these trips have these blocks, and all others their own.
`audit` alone reads the agency's, since it judges the blocks of today.
"""
from __future__ import annotations

import csv
from collections.abc import Mapping
from dataclasses import dataclass
from functools import lru_cache
from pathlib import Path

from desk.errors import DeskError
from desk.records import open_records, record_text
from desk.stations import distinct
from desk.town import STATED, Town

TRIPS, BLOCK = "trips.txt", "block_id"

Blocks = Mapping[str, str]
"""The stated block of each trip that has one."""


def stated_text(blocks: Blocks) -> str:
    """The file; empty where no block is stated."""
    rows = "".join(record_text([trip, block]) for trip, block in blocks.items())
    return record_text(["trip_id", BLOCK]) + rows if rows else ""


def read_stated(path: Path) -> dict[str, str]:
    """The blocks that a file states."""
    with open_records(path) as records:
        trip, block = records.column("trip_id"), records.column(BLOCK)
        return {fields[trip]: fields[block] for _, fields in records}


def lay_stated(town: Town, room: Path) -> None:
    """Puts the blocks that a day type states into a room."""
    if town.above and town.has(STATED):
        lay_blocks(town, room, read_stated(town.path(STATED)))


def lay_blocks(town: Town, room: Path, blocks: Blocks) -> None:
    """Writes the `trips.txt` of a room with these blocks. All other trips have the agency's blocks, whose names none of these has.

    A `trips.txt` that cannot be read stays as it is, and the program says what is wrong with it.
    """
    path = town.path(TRIPS)
    found = _lines_of(path, path.stat().st_mtime_ns) if blocks and path.is_file() else None
    if found is None:
        return
    lines, names = found.lines.copy(), {"": ""}
    taken = {block for trip, block in found.blocks if trip not in blocks}
    for trip, block in blocks.items():
        if block not in names:
            names[block] = distinct(block, "stated", lambda name: name in taken)
            taken.add(names[block])
        for place in found.places.get(trip, ()):
            fields = next(csv.reader([lines[place]]))
            fields[found.block] = names[block]
            lines[place] = record_text(fields)
    (room / TRIPS).unlink()
    (room / TRIPS).write_text("".join(lines), encoding="utf-8", errors="surrogateescape", newline="")


@dataclass(frozen=True)
class _Lines:
    """The lines of a `trips.txt` with a column of blocks: the places of each trip in them, that of a block in a line, and the block of
    each trip."""

    lines: list[str]
    places: dict[str, list[int]]
    block: int
    blocks: list[tuple[str, str]]


@lru_cache(maxsize=1)
def _lines_of(path: Path, _: int) -> _Lines | None:
    """The lines of a file, which is read once for all rooms; None where it cannot be read."""
    try:
        with open_records(path) as records:
            name, block, width = records.column("trip_id"), records.find(BLOCK), len(records.header)
            header = records.header if block is not None else [*records.header, BLOCK]
            found = _Lines([record_text(header)], {}, width if block is None else block, [])
            for _, fields in records:
                if block is None:
                    fields.insert(width, "")
                found.places.setdefault(fields[name], []).append(len(found.lines))
                found.blocks.append((fields[name], fields[found.block]))
                found.lines.append(record_text(fields))
            return found
    except DeskError:
        return None
