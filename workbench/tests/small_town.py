"""Planned feeds for the tests of what is drawn and counted: the small town with deadheads and a depot, and two trips."""
from __future__ import annotations

import csv
import shutil
from collections.abc import Mapping
from pathlib import Path

from desk import program
from tests.feeds import write_feed

EXAMPLES = program.ROOT / "examples"

DEADHEADS = """from,to,minutes
Station,Hospital,9
Hospital,Station,9
Station,Oakfield,12
Oakfield,Station,12
Station,Market Square,4
Market Square,Station,4
college,quarry,15
quarry,college,15
college,Station,8
Station,college,8
"""

DEPOT = """terminal,pull_out,pull_in
Station,6,6
Hospital,12,12
Oakfield,9,9
Market Square,8,8
quarry,14,14
college,10,10
"""

TWO_TRIPS = {
    "trips.txt": "route_id,service_id,trip_id,trip_headsign\nR,W,U1,Bee\nR,W,U2,Ay\n",
    "stop_times.txt": "trip_id,arrival_time,departure_time,stop_id,stop_sequence\n"
                      "U1,06:00:20,06:00:40,A,1\nU1,06:29:10,06:29:10,B,2\n"
                      "U2,07:00:00,07:00:00,C,1\nU2,07:30:00,07:30:00,A,2\n",
    "routes.txt": "route_id,route_short_name\nR,9\n",
    "deadheads.csv": "from,to,minutes\nB,C,20\n",
    "depot.csv": "terminal,pull_out,pull_in\nA,10,15\nC,7,0\n",
}
"""Two trips of one vehicle, which runs empty between them, out of the depot and home."""


def plan(folder: Path) -> None:
    """Has the program write `blocks.csv`, `prices.csv` and `boards.csv`."""
    for command in ("blocks", "joined"):
        outcome = program.run([command, folder])
        if outcome.status not in (0, 1):
            raise AssertionError(f"{command}: {outcome.text!r} {outcome.errors!r}")


def two_trips(folder: Path, files: Mapping[str, str | bytes] | None = None) -> Path:
    """The feed of two trips, with these files in place of its own or beside them."""
    return write_feed(folder, {**TWO_TRIPS, **(files or {})})


def small_town(folder: Path, script: str | None = None) -> Path:
    """The example of a small town with deadheads and a depot."""
    shutil.copytree(EXAMPLES / "small_town", folder, ignore=shutil.ignore_patterns("expected"))
    write_feed(folder, {"deadheads.csv": DEADHEADS, "depot.csv": DEPOT} | ({} if script is None else {"edits.csv": script}))
    return folder


def rows(path: Path) -> list[dict[str, str]]:
    """The records of a file by the names of its columns, read without the modules that are tested."""
    with open(path, newline="", encoding="utf-8-sig") as file:
        return list(csv.DictReader(file))
