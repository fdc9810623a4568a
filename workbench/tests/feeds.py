"""Made feeds for the tests, and what the tests share: folders, zips, and the program where it is there."""
from __future__ import annotations

import contextlib
import datetime
import io
import json
import os
import shutil
import tempfile
import threading
import unittest
import zipfile
from collections.abc import Iterable, Mapping
from pathlib import Path
from typing import Any

from desk import cli
from desk.locks import LOCK
from desk.open.session import Session
from desk.open.web import WebServer
from desk.program import ROOT, program_path
from desk.records import record_text
from desk.times import format_time
from tests.forms import is_answer

Feed = dict[str, str]

DESK = ROOT / "desk"
"""The workbench, as it is run."""

BUILT = ROOT / "crates" / "blockdesk" / "out" / "blockdesk"
"""The program as it is built in this repository. Tests never build it."""

TOKEN = "the-token-of-the-tests"
"""The token of the page's server in the tests."""

os.environ.setdefault("BLOCKDESK", str(BUILT))

needs_program = unittest.skipUnless(os.access(program_path(), os.X_OK), "the program is not built")
"""Marks a test or a class of tests that runs the program. It is skipped where the program is not there."""


class FolderTest(unittest.TestCase):
    """A test with a folder of its own, `self.room`, that is gone afterwards."""

    def setUp(self) -> None:
        self.room = Path(tempfile.mkdtemp(prefix="desk-"))
        self.addCleanup(shutil.rmtree, self.room, ignore_errors=True)

    def desk(self, *words: str | Path) -> tuple[int, str, str]:
        """Runs the workbench with these words: its status, what it puts, and its errors. None of these is a traceback."""
        out, errors = io.StringIO(), io.StringIO()
        with contextlib.redirect_stdout(out), contextlib.redirect_stderr(errors):
            status = cli.main([str(word) for word in words])
        self.assertNotIn("Traceback", errors.getvalue())
        self.assertNotIn("mistake of the workbench", errors.getvalue())
        return status, out.getvalue(), errors.getvalue()

    def answer(self, *words: str | Path, status: int = 0) -> dict[str, Any]:
        """The answer of a command as JSON, which ends with this status. It is of the command's form, and nothing else is put."""
        ended, text, errors = self.desk(*words, "--json")
        self.assertEqual((ended, errors), (status, ""))
        answer = json.loads(text)
        self.assertTrue(is_answer(str(words[0]), answer))
        return answer

    def make_period(self, town: Path, feed: Feed) -> None:
        """Makes a town with days of a feed."""
        self.desk("new", write_feed(self.room / "agency", feed), town, "--days")

    def serve_page(self, sessions: Session | list[Session]) -> WebServer:
        """A server of the page with a session, or with one for each day type. It ends with the test."""
        server = WebServer(sessions, TOKEN)
        thread = threading.Thread(target=server.serve_forever, kwargs={"poll_interval": 0.02}, daemon=True)
        thread.start()
        for end in (thread.join, server.server_close, server.shutdown):
            self.addCleanup(end)
        return server


def table(header: str, rows: Iterable[Iterable[object]]) -> str:
    """A comma-separated file of a header line and rows."""
    return header + "\n" + "".join(record_text([str(field) for field in row]) for row in rows)


def write_feed(folder: Path, feed: Mapping[str, str | bytes]) -> Path:
    """Writes the files of a feed into a folder, which is made where it is not there."""
    folder.mkdir(parents=True, exist_ok=True)
    for name, content in feed.items():
        (folder / name).write_bytes(content if isinstance(content, bytes) else content.encode("utf-8"))
    return folder


def files_of(folder: Path) -> dict[str, bytes]:
    """The bytes of each file below a folder but its lock, by its path from there."""
    return {str(path.relative_to(folder)): path.read_bytes() for path in folder.rglob("*") if path.is_file() and path.name != LOCK}


def zip_feed(path: Path, feed: Mapping[str, str | bytes], inside: str = "") -> Path:
    """Writes the files of a feed into a zip, at its top or in a folder of it, as `inside="agency/"`."""
    with zipfile.ZipFile(path, "w", zipfile.ZIP_DEFLATED) as archive:
        for name, content in feed.items():
            archive.writestr(inside + name, content)
    return path


def as_agencies_write(feed: Feed) -> Feed:
    """The same feed with byte-order marks and CRLF."""
    return {name: "\ufeff" + text.replace("\n", "\r\n") for name, text in feed.items()}


def demonstration() -> Feed:
    """A feed like the demonstration feed of the GTFS reference: frequencies, one-digit hours, no stations; of 2007 to 2010."""
    return dict(_DEMONSTRATION)


_DEMONSTRATION: Feed = {
    "agency.txt": "agency_id,agency_name,agency_url,agency_timezone\n"
                  "DTA,Demo Transit Authority,http://example.com,America/Los_Angeles\n",
    "stops.txt": """stop_id,stop_name,stop_desc,stop_lat,stop_lon,zone_id,stop_url
FUR_CREEK_RES,Furnace Creek Resort (Demo),,36.425288,-117.133162,,
BEATTY_AIRPORT,Nye County Airport (Demo),,36.868446,-116.784582,,
BULLFROG,Bullfrog (Demo),,36.88108,-116.81797,,
STAGECOACH,Stagecoach Hotel & Casino (Demo),,36.915682,-116.751677,,
NADAV,North Ave / D Ave N (Demo),,36.914893,-116.76821,,
NANAA,North Ave / N A Ave (Demo),,36.914944,-116.761472,,
DADAN,Doing Ave / D Ave N (Demo),,36.909489,-116.768242,,
EMSI,E Main St / S Irving St (Demo),,36.905697,-116.76218,,
AMV,Amargosa Valley (Demo),,36.641496,-116.40094,,
""",
    "routes.txt": """route_id,agency_id,route_short_name,route_long_name,route_type
AB,DTA,10,Airport - Bullfrog,3
BFC,DTA,20,Bullfrog - Furnace Creek Resort,3
STBA,DTA,30,Stagecoach - Airport Shuttle,3
CITY,DTA,40,City,3
AAMV,DTA,50,Airport - Amargosa Valley,3
""",
    "calendar.txt": """service_id,monday,tuesday,wednesday,thursday,friday,saturday,sunday,start_date,end_date
FULLW,1,1,1,1,1,1,1,20070101,20101231
WE,0,0,0,0,0,1,1,20070101,20101231
""",
    "calendar_dates.txt": "service_id,date,exception_type\nFULLW,20070604,2\n",
    "trips.txt": """route_id,service_id,trip_id,trip_headsign,direction_id,block_id
AB,FULLW,AB1,to Bullfrog,0,1
AB,FULLW,AB2,to Airport,1,2
STBA,FULLW,STBA,Shuttle,,
CITY,FULLW,CITY1,,0,
CITY,FULLW,CITY2,,1,
BFC,FULLW,BFC1,to Furnace Creek Resort,0,1
BFC,FULLW,BFC2,to Bullfrog,1,2
AAMV,WE,AAMV1,to Amargosa Valley,0,
AAMV,WE,AAMV2,to Airport,1,
AAMV,WE,AAMV3,to Amargosa Valley,0,
AAMV,WE,AAMV4,to Airport,1,
""",
    "stop_times.txt": """trip_id,arrival_time,departure_time,stop_id,stop_sequence
STBA,6:00:00,6:00:00,STAGECOACH,1
STBA,6:20:00,6:20:00,BEATTY_AIRPORT,2
CITY1,6:00:00,6:00:00,STAGECOACH,1
CITY1,6:05:00,6:07:00,NANAA,2
CITY1,6:12:00,6:14:00,NADAV,3
CITY1,6:19:00,6:21:00,DADAN,4
CITY1,6:26:00,6:28:00,EMSI,5
CITY2,6:28:00,6:30:00,EMSI,1
CITY2,6:35:00,6:37:00,DADAN,2
CITY2,6:42:00,6:44:00,NADAV,3
CITY2,6:49:00,6:51:00,NANAA,4
CITY2,6:56:00,6:58:00,STAGECOACH,5
AB1,8:00:00,8:00:00,BEATTY_AIRPORT,1
AB1,8:10:00,8:15:00,BULLFROG,2
AB2,12:05:00,12:05:00,BULLFROG,1
AB2,12:15:00,12:15:00,BEATTY_AIRPORT,2
BFC1,8:20:00,8:20:00,BULLFROG,1
BFC1,9:20:00,9:20:00,FUR_CREEK_RES,2
BFC2,11:00:00,11:00:00,FUR_CREEK_RES,1
BFC2,12:00:00,12:00:00,BULLFROG,2
AAMV1,8:00:00,8:00:00,BEATTY_AIRPORT,1
AAMV1,9:00:00,9:00:00,AMV,2
AAMV2,10:00:00,10:00:00,AMV,1
AAMV2,11:00:00,11:00:00,BEATTY_AIRPORT,2
AAMV3,13:00:00,13:00:00,BEATTY_AIRPORT,1
AAMV3,14:00:00,14:00:00,AMV,2
AAMV4,15:00:00,15:00:00,AMV,1
AAMV4,16:00:00,16:00:00,BEATTY_AIRPORT,2
""",
    "frequencies.txt": """trip_id,start_time,end_time,headway_secs
STBA,6:00:00,22:00:00,1800
CITY1,6:00:00,7:59:59,1800
CITY2,6:00:00,7:59:59,1800
CITY1,8:00:00,9:59:59,600
CITY2,8:00:00,9:59:59,600
CITY1,10:00:00,15:59:59,1800
CITY2,10:00:00,15:59:59,1800
CITY1,16:00:00,18:59:59,600
CITY2,16:00:00,18:59:59,600
CITY1,19:00:00,22:00:00,1800
CITY2,19:00:00,22:00:00,1800
""",
}

FIRST_DAY = datetime.date(2026, 8, 31)
"""The Monday on which the calendars of the made agency begin."""

PLACES = {
    "central": ("Central Station", 52.1000, -0.4500, 3),
    "harbour": ("Harbour", 52.1300, -0.4100, 2),
    "college": ("College, Main Gate", 52.0700, -0.4800, 2),
    "church_n": ("Church", 52.1500, -0.5000, 2),
    "church_s": ("Church", 52.0500, -0.4000, 2),
}
"""The stations of the made agency: name, coordinates, number of platforms. Two have one name and are far apart."""

LINES = {
    "1": ("central", "harbour", 17),
    "2": ("central", "college", 23),
    "3": ("church_n", "church_s", 41),
    "4": ("harbour", "market", 29),
    "5": ("college", "edge", 13),
}
"""The lines of the made agency: from, to, minutes. The market is two stops of one name, and the edge one stop of its own."""


def agency(headway: int = 20) -> Feed:
    """A made agency with stations and platforms, coordinates, seconds, exceptions, and trips over midnight.

    It has the services `weekday`, `school`, `saturday` and `sunday` for 12 weeks from FIRST_DAY. On the Monday of the third week
    `sunday` runs in place of the others. The files have byte-order marks, CRLF, and quoted commas.
    """
    trips, times = [], []
    for service, first, last, every in (("weekday", 300, 1470, headway), ("saturday", 360, 1410, 2 * headway), ("sunday", 420, 1380, 3 * headway)):
        for line in LINES:
            for number, minute in enumerate(range(first, last, every)):
                _add_trip(trips, times, service, line, minute, number)
    for number in range(6):
        _add_trip(trips, times, "school", "5", 465 + 5 * number, number)
    return as_agencies_write({
        "agency.txt": "agency_name,agency_url,agency_timezone\n\"Made, Ltd\",http://example.com,Europe/London\n",
        "stops.txt": table("stop_id,stop_name,stop_lat,stop_lon,location_type,parent_station", _stops()),
        "routes.txt": table("route_id,route_short_name,route_long_name,route_type",
                            [(f"line_{line}", line, f"{ends[0]} - {ends[1]}", 3) for line, ends in LINES.items()]),
        "calendar.txt": _calendar(),
        "calendar_dates.txt": _exceptions(),
        "trips.txt": table("route_id,service_id,trip_id,trip_headsign,direction_id,block_id", trips),
        "stop_times.txt": table("trip_id,arrival_time,departure_time,stop_id,stop_sequence,timepoint", times),
    })


def _stops() -> list[tuple[object, ...]]:
    """The rows of `stops.txt` of the made agency: stations, their platforms, and stops without a station."""
    rows: list[tuple[object, ...]] = []
    for station, (name, lat, lon, platforms) in PLACES.items():
        rows.append((station, name, lat, lon, 1, ""))
        for number in range(1, platforms + 1):
            rows.append((f"{station}_{number}", f"{name}, platform {number}", f"{lat + number / 10000:.4f}", lon, 0, station))
    rows += [("market_1", "Market, North", 52.09, -0.43, 0, ""), ("market_2", "Market, North", 52.0905, -0.4305, "", ""),
             ("edge", "Edge of Town", 52.0, -0.5, "", ""), ("between", "High Street", 52.11, -0.44, "", "")]
    return rows


def _platform(place: str, number: int) -> str:
    """A platform of a place of the made agency."""
    if place == "edge":
        return place
    return f"{place}_{1 + number % (PLACES[place][3] if place in PLACES else 2)}"


def _add_trip(trips: list, times: list, service: str, line: str, minute: int, number: int) -> None:
    """Adds a trip out and one back, with half minutes at a stop between."""
    first, second, takes = LINES[line]
    for direction, (start, end) in enumerate(((first, second), (second, first))):
        name = f"{service}_{line}_{direction}_{minute:04}"
        leaves = 60 * (minute + 7 * direction) + 10
        arrives = leaves + 60 * takes + 25
        trips.append((f"line_{line}", service, name, f"To {end}, direct", direction, f"{line}.{1 + number % 4}"))
        for sequence, (seconds, stop, exact) in enumerate(((leaves, _platform(start, number), 1), ((leaves + arrives) // 2, "between", 0),
                                                           (arrives, _platform(end, number + direction), 1))):
            times.append((name, format_time(seconds), format_time(seconds), stop, 10 * sequence + 5, exact))


def _calendar() -> str:
    """The `calendar.txt` of the made agency."""
    first, last = FIRST_DAY, FIRST_DAY + datetime.timedelta(days=83)
    days = {"weekday": "1111100", "school": "1111100", "saturday": "0000010", "sunday": "0000001"}
    return table("service_id,monday,tuesday,wednesday,thursday,friday,saturday,sunday,start_date,end_date",
                 [(service, *marks, f"{first:%Y%m%d}", f"{last:%Y%m%d}") for service, marks in days.items()])


def _exceptions() -> str:
    """The `calendar_dates.txt` of the made agency."""
    holiday = f"{FIRST_DAY + datetime.timedelta(days=14):%Y%m%d}"
    return table("service_id,date,exception_type", [("weekday", holiday, 2), ("school", holiday, 2), ("sunday", holiday, 1)])
