"""A reader of GTFS for the tests: what runs on each date, and in which block. It uses no module of the workbench."""
from __future__ import annotations

import csv
import datetime
import io
import zipfile
from collections import Counter
from pathlib import Path

WEEK = ("monday", "tuesday", "wednesday", "thursday", "friday", "saturday", "sunday")

Run = tuple[str, str, tuple[tuple[str, str, int, int], ...]]
"""A trip as passengers know it: its route, its headsign, and its rows: stop, sequence and the seconds of both times, -1 without one."""


class Gtfs:
    """A feed in a zip or a folder."""

    def __init__(self, path: Path) -> None:
        self.path = path
        self.trips = {row["trip_id"]: row for row in self.rows("trips.txt")}
        self.runs = self._runs()
        self.services = {row["service_id"]: row for row in self.rows("calendar.txt")}
        self.exceptions = {(row["service_id"], row["date"]): row["exception_type"] for row in self.rows("calendar_dates.txt")}

    def rows(self, name: str) -> list[dict[str, str]]:
        """The records of a file, none where it is not there."""
        if self.path.is_dir():
            text = (self.path / name).read_text("utf-8-sig") if (self.path / name).is_file() else ""
        else:
            with zipfile.ZipFile(self.path) as archive:
                text = archive.read(name).decode("utf-8-sig") if name in archive.namelist() else ""
        return [{key.strip(): value or "" for key, value in row.items() if key} for row in csv.DictReader(io.StringIO(text))]

    def _runs(self) -> dict[str, list[Run]]:
        """What each trip is: once, or at each time at which `frequencies.txt` repeats it."""
        rows: dict[str, list[tuple[str, str, int, int]]] = {name: [] for name in self.trips}
        for row in self.rows("stop_times.txt"):
            rows[row["trip_id"]].append((row["stop_id"], row["stop_sequence"], seconds(row["arrival_time"]), seconds(row["departure_time"])))
        repeats: dict[str, list[int]] = {}
        for row in self.rows("frequencies.txt"):
            times = range(seconds(row["start_time"]), seconds(row["end_time"]), int(row["headway_secs"]))
            repeats.setdefault(row["trip_id"], []).extend(times)
        found = {}
        for name, trip in self.trips.items():
            own = sorted(rows[name], key=lambda row: int(row[1]))
            moves = [start - own[0][3] for start in repeats[name]] if name in repeats else [0]
            found[name] = [(trip["route_id"], trip.get("trip_headsign", ""), tuple(moved(row, by) for row in own)) for by in moves]
        return found

    def on(self, date: datetime.date) -> list[str]:
        """The trips of a date."""
        running = set()
        for service in {trip["service_id"] for trip in self.trips.values()}:
            row = self.services.get(service)
            usual = row is not None and row[WEEK[date.weekday()]] == "1" and row["start_date"] <= f"{date:%Y%m%d}" <= row["end_date"]
            exception = self.exceptions.get((service, f"{date:%Y%m%d}"))
            if exception == "1" or usual and exception != "2":
                running.add(service)
        return [name for name, trip in self.trips.items() if trip["service_id"] in running]

    def content(self, date: datetime.date) -> Counter[Run]:
        """What runs on a date."""
        return Counter(run for name in self.on(date) for run in self.runs[name])

    def blocks(self, date: datetime.date) -> dict[str, list[Run]]:
        """The blocks of a date, each with what it runs in the order of time."""
        found: dict[str, list[Run]] = {}
        for name in self.on(date):
            found.setdefault(self.trips[name]["block_id"], []).extend(self.runs[name])
        return {block: sorted(runs, key=lambda run: run[2][0][3]) for block, runs in found.items()}


def seconds(text: str) -> int:
    """The seconds of a time, -1 without one."""
    if not text.strip():
        return -1
    hours, minutes, rest = map(int, text.split(":"))
    return 3600 * hours + 60 * minutes + rest


def moved(row: tuple[str, str, int, int], by: int) -> tuple[str, str, int, int]:
    """A row at other times."""
    stop, sequence, arrives, departs = row
    return stop, sequence, arrives + by if arrives >= 0 else -1, departs + by if departs >= 0 else -1
