"""A feed of 100 MB is unpacked and drafted in seconds, with little memory."""
from __future__ import annotations

import os
import subprocess
import sys
import zipfile
from collections.abc import Iterable
from pathlib import Path

from desk.program import ROOT
from desk.times import format_time
from tests.feeds import FolderTest

TRIPS, ROWS, SERVICES = 66_000, 35, 20
MOST_SECONDS, MOST_MEGABYTES = 60, 300
"""The seconds are those of a processor. One that is busy with other work needs twice as many as one that is not."""

MEASURED = """
import re, sys
from desk.cli import main
status = main(sys.argv[1:])
print(re.search("VmHWM: *([0-9]+)", open("/proc/self/status").read().replace("\\t", " "))[1])
sys.exit(status)
"""
"""Runs the workbench, and prints the most kilobytes that it has had."""


def write_large(folder: Path) -> None:
    """A feed with more than 100 MB of `stop_times.txt`, of SERVICES services, each with its share of the trips."""
    clock = [format_time(seconds) for seconds in range(0, 90_000, 75)]
    stops = [f"{stop},Stop {stop},{50 + stop / 10_000},{stop % 40 / 200}" for stop in range(1600)]
    dates = [f"S{service},203001{service + 1:02},1" for service in range(SERVICES)]
    trips = (f"S{trip % SERVICES},agency_trip_{trip},R{trip % 30},\"To the end, {trip % 60}\"" for trip in range(TRIPS))
    times = (f"agency_trip_{trip},{clock[300 + trip % 700 + row]},{clock[300 + trip % 700 + row]},{trip % 40 * 40 + row},{row},1"
             for trip in range(TRIPS) for row in range(ROWS))
    write_lines(folder / "stops.txt", "stop_id,stop_name,stop_lat,stop_lon", stops)
    write_lines(folder / "calendar_dates.txt", "service_id,date,exception_type", dates)
    write_lines(folder / "trips.txt", "service_id,trip_id,route_id,trip_headsign", trips)
    write_lines(folder / "stop_times.txt", "trip_id,arrival_time,departure_time,stop_id,stop_sequence,timepoint", times)


def write_lines(path: Path, header: str, lines: Iterable[str]) -> None:
    """Writes a file of a header and lines."""
    with open(path, "w", encoding="utf-8") as file:
        file.write(header + "\n")
        file.writelines(line + "\n" for line in lines)


class LargeFeed(FolderTest):
    """Time and memory of a run."""

    def measured(self, *words: str) -> tuple[float, float, str]:
        """Runs the workbench: the seconds of the processor that it takes, the most megabytes that it has, and its report."""
        with subprocess.Popen([sys.executable, "-c", MEASURED, *words], cwd=self.room, stdout=subprocess.PIPE, text=True,
                              env={**os.environ, "PYTHONPATH": str(ROOT / "workbench")}) as running:
            text = running.stdout.read()
            _, status, used = os.wait4(running.pid, 0)
            running.returncode = os.waitstatus_to_exitcode(status)
        self.assertEqual(0, running.returncode)
        return used.ru_utime + used.ru_stime, int(text.splitlines()[-1]) / 1024, text

    def test_a_feed_of_100_megabytes(self) -> None:
        folder = self.room / "folder"
        folder.mkdir()
        write_large(folder)
        self.assertGreater((folder / "stop_times.txt").stat().st_size, 100_000_000)
        with zipfile.ZipFile(self.room / "feed.zip", "w", zipfile.ZIP_DEFLATED, compresslevel=1) as archive:
            for path in folder.iterdir():
                archive.write(path, path.name)
        write_lines(folder / "frequencies.txt", "trip_id,start_time,end_time,headway_secs,exact_times", ["agency_trip_0,06:00:00,10:00:00,600,1"])
        for name, trips in (("feed.zip", "3,300 trips on"), ("folder", "3,323 trips on")):
            with self.subTest(name):
                seconds, megabytes, text = self.measured("new", name, f"town of {name}")
                self.assertIn(trips, text)
                self.assertLess(seconds, MOST_SECONDS)
                self.assertLess(megabytes, MOST_MEGABYTES)
