"""Tests of the running boards: the page is read back, and each time is sought in the agency's files."""
from __future__ import annotations

import base64
import csv
import hashlib
import io
import re
import shutil
import tempfile
import unittest
from html.parser import HTMLParser
from pathlib import Path

from tests.feeds import FolderTest, needs_program
from tests.small_town import plan, rows, small_town, two_trips


class Page(HTMLParser):
    """The rows of the tables of a page: for each section the texts of its cells."""

    def __init__(self, text: str) -> None:
        super().__init__()
        self.sections: list[list[list[str]]] = []
        self.headings: list[str] = []
        self.open: list[str] = []
        self.loads: list[str] = []
        self.feed(text)

    def handle_starttag(self, tag: str, attrs: list[tuple[str, str | None]]) -> None:
        """Opens a section, a row or a cell."""
        self.loads += [value or "" for name, value in attrs if name in ("src", "href")] + ([tag] if tag == "script" else [])
        if tag in ("meta", "br"):
            return
        self.open.append(tag)
        if tag == "section":
            self.sections.append([])
            self.headings.append("")
        if tag == "tr" and "tbody" in self.open:
            self.sections[-1].append([])
        if tag == "td":
            self.sections[-1][-1].append("")

    def handle_endtag(self, tag: str) -> None:
        """Closes what was opened last, which has to be of this name."""
        if self.open.pop() != tag:
            raise AssertionError(f"{tag} is closed where another is open")

    def handle_data(self, data: str) -> None:
        """Adds a text to the open cell or heading."""
        if "td" in self.open:
            self.sections[-1][-1][-1] += data
        elif "header" in self.open or "div" in self.open or "p" in self.open:
            self.headings[-1] += f"{data} "


def seconds(text: str) -> int:
    """The seconds of HH:MM or HH:MM:SS."""
    parts = [int(part) for part in text.split(":")]
    return 3600 * parts[0] + 60 * parts[1] + (parts[2] if len(parts) > 2 else 0)


def published(feed: Path) -> dict[str, list[dict[str, str]]]:
    """The rows of `stop_times.txt` of each trip, in the order of their sequence."""
    found: dict[str, list[dict[str, str]]] = {}
    for row in rows(feed / "stop_times.txt"):
        found.setdefault(row["trip_id"], []).append(row)
    return {trip: sorted(stops, key=lambda row: int(row["stop_sequence"])) for trip, stops in found.items()}


@needs_program
class SmallTown(FolderTest):
    """The boards of the small town, whose trips have timing points, seconds, and nights past 24:00.

    Nothing is preferred there, so a vehicle has trips of two services.
    """

    @classmethod
    def setUpClass(cls) -> None:
        cls.shared = Path(tempfile.mkdtemp(prefix="desk-"))
        cls.addClassCleanup(shutil.rmtree, cls.shared, ignore_errors=True)
        cls.feed = small_town(cls.shared / "town")
        settings = cls.feed / "desk.toml"
        settings.write_text("prefer = []\n" + settings.read_text("utf-8"), "utf-8")
        plan(cls.feed)

    def made(self, name: str, *words: str) -> str:
        """The boards that these words make, which are made once for all tests."""
        path = self.shared / name
        if not path.exists():
            self.assertEqual(self.desk("boards", self.feed, "-o", path, *words), (0, "", ""))
        return path.read_text("utf-8")

    def page(self) -> Page:
        """The page of the town."""
        return Page(self.made("boards.html"))

    def records(self) -> list[dict[str, str]]:
        """The records of the town."""
        return list(csv.DictReader(io.StringIO(self.made("boards_of_drivers.csv", "--csv"), newline="")))

    def test_a_board_for_each_block_and_a_list_by_time_of_leaving(self) -> None:
        page = self.page()
        blocks = list(dict.fromkeys(row["block_id"] for row in rows(self.feed / "blocks.csv")))
        self.assertEqual([heading.split()[1] for heading in page.headings[1:]], blocks)
        self.assertEqual((page.open, page.loads), ([], []))
        leaving = [seconds(row[0]) for row in page.sections[0]]
        self.assertEqual(leaving, sorted(leaving))
        first = {row["block_id"]: row for row in reversed(rows(self.feed / "boards.csv"))}
        out = {row["block_id"]: int(row["deadhead"]) for row in reversed(rows(self.feed / "blocks.csv"))}
        self.assertEqual({row[1]: seconds(row[0]) for row in page.sections[0]},
                         {block: seconds(first[block]["leaves"]) - 60 * out[block] for block in blocks})
        for heading in page.headings:
            self.assertIn("Monday 7 September 2026", heading)
        self.assertIn("The program says yes to these blocks: 10 vehicles, 216 empty minutes.", page.headings[0])
        self.assertIn("services school, weekday", page.headings[blocks.index("V7") + 1])

    def test_the_trips_of_the_page_have_the_published_times(self) -> None:
        page, times = self.page(), published(self.feed)
        of_block: dict[str, list[str]] = {}
        for row in rows(self.feed / "blocks.csv"):
            of_block.setdefault(row["block_id"], []).append(row["trip_id"])
        for trips, section in zip(of_block.values(), page.sections[1:]):
            shown = [row for row in section if row[1] not in ("out", "empty", "home")]
            self.assertEqual(len(shown), len(trips))
            for trip, row in zip(trips, shown):
                stops = times[trip]
                self.assertIn(f" {trip}", row[2])
                self.assertEqual((seconds(row[0]), seconds(row[3])), (seconds(stops[0]["departure_time"]), seconds(stops[-1]["arrival_time"])))
                for stop in stops[1:-1]:
                    clock = stop["departure_time"].removesuffix(":00")
                    self.assertEqual(stop["timepoint"] == "1", bool(clock) and clock in row[2], (trip, stop))

    def test_the_records_follow_on_one_another(self) -> None:
        before: dict[str, dict[str, str]] = {}
        empty = 0
        for row in self.records():
            if row["kind"] == "point":
                continue
            last = before.get(row["block_id"])
            if last is not None:
                gap = seconds(row["leaves"]) - seconds(last["arrives"])
                # Only behind a trip without a layover may seconds be left up to the next whole minute.
                self.assertTrue(gap == 0 or last["kind"] == "trip" and row["kind"] != "layover" and 0 < gap < 60, row)
            if row["kind"] in ("out", "empty", "home"):
                empty += int(row["minutes"])
            before[row["block_id"]] = row
        self.assertEqual(empty, 216)
        self.assertEqual({row["kind"] for row in before.values()}, {"home"})

    def test_layovers_and_waits_are_what_the_settings_and_boards_leave(self) -> None:
        layover = {"Station": 8, "Market Square": 3, "quarry": 0}
        ends = {row["trip_id"]: row for row in rows(self.feed / "boards.csv")}
        trip = ""
        found = 0
        for row in self.records():
            trip = row["trip_id"] or trip
            if row["kind"] == "layover":
                self.assertEqual(int(row["minutes"]), layover.get(ends[trip]["to"], 5))
                self.assertEqual(seconds(row["arrives"]), seconds(ends[trip]["arrives"]))
                found += 1
            if row["kind"] == "wait":
                self.assertEqual(60 * int(row["minutes"]), seconds(row["arrives"]) - seconds(row["leaves"]))
        self.assertEqual(found, sum(layover.get(row["to"], 5) > 0 for row in ends.values() if row["kind"] == "trip"))

    def test_ends_alone(self) -> None:
        _, out, _ = self.desk("boards", self.feed, "--csv", "--ends")
        found = list(csv.DictReader(io.StringIO(out, newline="")))
        kinds = [row["kind"] for row in found]
        self.assertEqual((kinds.count("trip"), kinds.count("point")), (188, 376))

    def test_no_file_of_the_program_is_written_over(self) -> None:
        before = (self.feed / "boards.csv").read_bytes()
        status, _, errors = self.desk("boards", self.feed, "--csv", "--replace", "-o", self.feed / "boards.csv")
        self.assertEqual(status, 2)
        self.assertIn("a file of the program", errors)
        self.assertEqual((self.feed / "boards.csv").read_bytes(), before)


@needs_program
class TwoTrips(FolderTest):
    """Boards of small feeds: shifts, extra trips, classes, names, and times before midnight."""

    def boards(self, files: dict[str, str | bytes], *words: str) -> list[dict[str, str]]:
        """The records of the boards of the two trips with these files."""
        feed = two_trips(self.room / "feed", files)
        plan(feed)
        status, out, errors = self.desk("boards", feed, "--csv", *words)
        self.assertEqual((status, errors), (0, ""))
        return list(csv.DictReader(io.StringIO(out, newline="")))

    def test_all_kinds_of_rows(self) -> None:
        found = [",".join(row[name] for name in ("kind", "from", "leaves", "to", "arrives", "minutes"))
                 for row in self.boards({"desk.toml": "layover = 4\n"})]
        self.assertEqual(found, [
            "out,,05:50:00,A,06:00:00,10", "trip,A,06:00:40,B,06:29:10,30", "point,A,06:00:40,A,,", "point,B,,B,06:29:10,",
            "layover,B,06:29:10,B,06:34:00,4", "empty,B,06:34:00,C,06:54:00,20", "wait,C,06:54:00,C,07:00:00,6",
            "trip,C,07:00:00,A,07:30:00,30", "point,C,07:00:00,C,,", "point,A,,A,07:30:00,",
            "layover,A,07:30:00,A,07:34:00,4", "home,A,07:34:00,,07:49:00,15"])

    def test_published_times_are_moved_by_shifts_and_not_rounded(self) -> None:
        found = self.boards({"desk.toml": "late = 9\n", "edits.csv": "shift,U1,+4\nundo\nshift,U1,+2\nshift,U9,+1\n"})
        trip = next(row for row in found if row["kind"] == "trip")
        self.assertEqual((trip["leaves"], trip["arrives"], trip["line"], trip["headsign"]), ("06:02:40", "06:31:10", "9", "Bee"))
        _, page, _ = self.desk("boards", self.room / "feed")
        self.assertIn("U1, shifted +2 min", page)
        self.assertIn("Records of the script that are refused and change nothing: 1.", page)

    def test_an_extra_trip_has_its_places_and_minutes(self) -> None:
        found = self.boards({"desk.toml": "layover = 5\n", "edits.csv": "extra,E1,A,B,08:00,08:20\n"})
        trip = [row for row in found if row["trip_id"] == "E1"]
        self.assertEqual([(row["kind"], row["from"], row["leaves"], row["to"], row["arrives"], row["line"]) for row in trip],
                         [("trip", "A", "08:00:00", "B", "08:20:00", ""), ("point", "A", "08:00:00", "A", "", ""),
                          ("point", "B", "", "B", "08:20:00", "")])

    def test_a_vehicle_that_leaves_the_day_before(self) -> None:
        self.boards({"stop_times.txt": "trip_id,arrival_time,departure_time,stop_id,stop_sequence\n"
                                       "U1,00:05:00,00:05:00,A,1\nU1,00:30:00,00:30:00,B,2\n"
                                       "U2,24:50:00,24:50:00,C,1\nU2,25:30:00,25:30:00,A,2\n"})
        _, text, _ = self.desk("boards", self.room / "feed", "--csv")
        self.assertIn("B1,out,,,,,-00:05:00,A,00:05:00,10", text)
        _, page, _ = self.desk("boards", self.room / "feed")
        self.assertIn("23:55 the day before", page)
        self.assertIn("25:45", page)

    def test_classes_and_services_stand_at_the_head(self) -> None:
        feed = two_trips(self.room / "feed", {"desk.toml": 'services = ["W"]\n[classes]\nR = "big"\n'})
        plan(feed)
        _, out, _ = self.desk("boards", feed)
        page = Page(out)
        self.assertIn("services W", page.headings[1])
        self.assertIn("vehicle class big", page.headings[1])
        self.assertEqual(page.sections[0][0][2], "big")

    def test_timing_points_are_those_that_are_kept(self) -> None:
        head = "trip_id,arrival_time,departure_time,stop_id,stop_sequence"
        rest = "U2,07:00:00,07:00:00,C,1{0}\nU2,07:30:00,07:30:00,A,2{0}\n"
        between = "U1,,06:00:00,A,1{0}\nU1,06:10:00,06:11:00,M,2{1}\nU1,,,N,3{2}\nU1,06:20:00,,O,4{3}\nU1,06:30:00,,B,9{0}\n"
        for column, marks, points in ((",timepoint", (",0", ",1", ",1", ",0"), "AMB"), (",timepoint", (",1", ",", ",", ","), "AMOB"),
                                      ("", ("", "", "", ""), "AMOB")):
            with self.subTest(marks=marks):
                found = self.boards({"stop_times.txt": head + column + "\n" + (between + rest).format(*marks)})
                self.assertEqual("".join(row["from"] for row in found if row["kind"] == "point" and row["trip_id"] == "U1"), points)
                self.assertEqual([row["leaves"] for row in found if row["kind"] == "point" and row["from"] == "M"], ["06:11:00"])

    def test_the_page_may_load_nothing_but_its_own_style(self) -> None:
        self.boards({})
        text = self.desk("boards", self.room / "feed")[1]
        style = re.search("<style>(.*?)</style>", text, re.S)
        checksum = base64.b64encode(hashlib.sha256(style[1].encode()).digest()).decode()
        policy = f"default-src 'none'; style-src 'sha256-{checksum}'; base-uri 'none'; form-action 'none'"
        self.assertIn(f'<meta http-equiv="Content-Security-Policy" content="{policy}">', text.partition("<style>")[0])
        self.assertNotIn(" style=", text)

    def test_names_that_a_page_must_not_take_for_its_own(self) -> None:
        name = "<script>alert(1)</script>&\"'"
        feed = two_trips(self.room / "feed", {
            "trips.txt": b"route_id,service_id,trip_id,trip_headsign\nR,W,U1,<b>\xff</b>\nR,W,U2,x\n",
            "stops.txt": 'stop_id,stop_name\nA,"' + name.replace('"', '""') + '"\n'})
        plan(feed)
        status, out, _ = self.desk("boards", feed)
        page = Page(out)
        self.assertEqual((status, page.loads, page.open), (0, [], []))
        self.assertIn(name, page.sections[1][1][2])
        self.assertIn("<b>\ufffd</b>", page.sections[1][1][2])

    def test_a_file_that_is_there_stays(self) -> None:
        path = self.room / "boards.html"
        self.boards({}, "-o", str(path))
        before = path.read_bytes()
        status, _, errors = self.desk("boards", self.room / "feed", "-o", path)
        self.assertEqual((status, path.read_bytes()), (1, before))
        self.assertIn("--replace", errors)
        self.assertEqual(self.desk("boards", self.room / "feed", "-o", path, "--replace")[0], 0)
        self.assertTrue(path.read_text().startswith("<!DOCTYPE html>"))

    def test_boards_of_two_plans_are_refused(self) -> None:
        self.boards({})
        (self.room / "feed" / "boards.csv").write_text("block_id,kind,trip_id,from,leaves,to,arrives\nB1,trip,U1,A,06:00,B,06:30\n")
        status, out, errors = self.desk("boards", self.room / "feed", "-o", self.room / "boards.html")
        self.assertEqual((status, out), (1, ""))
        self.assertRegex(errors, "^desk: boards.csv and blocks.csv are not of one plan: .*\n$")
        self.assertFalse((self.room / "boards.html").exists())

    def test_a_day_without_trips(self) -> None:
        self.assertEqual(self.boards({"desk.toml": "services = []\n"}), [])
        _, out, _ = self.desk("boards", self.room / "feed")
        self.assertEqual(Page(out).sections, [[]])


if __name__ == "__main__":
    unittest.main()
