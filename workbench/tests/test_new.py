"""`./desk new`: what stands in a town, what the report says, and that the program accepts what is drafted."""
from __future__ import annotations

import datetime
import os
import random
import re
import tomllib
from pathlib import Path
from unittest import mock

from desk.errors import DeskError
from desk.new.settings import settings_text
from desk.program import run
from tests.feeds import (FIRST_DAY, Feed, FolderTest, agency, as_agencies_write, demonstration, files_of, needs_program, table, write_feed,
                         zip_feed)

READ = ("trips.txt", "stop_times.txt", "calendar.txt", "calendar_dates.txt")


class NewTest(FolderTest):
    """A test with feeds, on the Wednesday of the first week of the made agency."""

    def setUp(self) -> None:
        super().setUp()
        patch = mock.patch("desk.new.steps.today", return_value=FIRST_DAY + datetime.timedelta(days=2))
        patch.start()
        self.addCleanup(patch.stop)
        self.town = self.room / "town"

    def new(self, feed: Feed, *words: str, status: int = 0) -> str:
        """Makes the town of a feed, and gives the report."""
        ended, text, errors = self.desk("new", zip_feed(self.room / "feed.zip", feed), self.town, *words)
        self.assertEqual((status, ""), (ended, errors))
        self.assertEqual([], [name for name in os.listdir(self.room) if name.startswith(".")])
        return re.sub(r"\n {4,}", " ", text)

    def refused(self, feed: Feed, message: str, *words: str, status: int = 1) -> None:
        """No town is made of a feed, with this message."""
        ended, text, errors = self.desk("new", zip_feed(self.room / "feed.zip", feed), self.town, *words)
        self.assertEqual((status, "", False), (ended, text, self.town.exists()))
        self.assertRegex(errors, f"^desk: .*{message}.*\n$")

    def read(self, name: str) -> str:
        """The text of a file of the town."""
        return (self.town / name).read_text(encoding="utf-8")

    def tree(self) -> dict[str, bytes]:
        """All files of the town, but for its lock."""
        return files_of(self.town)


class MadeAgency(NewTest):
    """The town of the made agency, whose files have marks, CRLF and quoted commas."""

    def test_the_files_of_the_agency_are_unchanged(self) -> None:
        self.new(agency())
        for name, text in agency().items():
            self.assertEqual(text.encode(), (self.town / "agency" / name).read_bytes())
            self.assertEqual(name in READ, (self.town / name).exists())
        for name in READ:
            self.assertEqual(agency()[name].encode(), (self.town / name).read_bytes())
        self.assertEqual(sorted([*READ, "agency", "desk.toml", "terminals.csv", "deadheads.csv"]), sorted(os.listdir(self.town)))

    def test_terminals_and_ways(self) -> None:
        self.new(agency(), "--depot", "52.09,-0.46")
        terminals = dict(line.rsplit(",", 1) if '"' not in line else line.split(",", 1) for line in self.read("terminals.csv").splitlines()[1:])
        expected = {"central_1": "Central Station", "central_3": "Central Station", "college_2": '"College, Main Gate"',
                    "church_n_1": "Church (church_n)", "church_s_2": "Church (church_s)", "market_1": '"Market, North"',
                    "market_2": '"Market, North"', "edge": "Edge of Town"}
        self.assertEqual(expected, {stop: terminals[stop] for stop in expected})
        ways = self.read("deadheads.csv").splitlines()
        # 4.316 km between the stations, which by 1.3 at 25 km/h take 13.5 minutes
        self.assertEqual((1 + 8 * 7, 1), (len(ways), ways.count("Central Station,Harbour,14")))
        self.assertEqual(8 * 7, len({tuple(line.rsplit(",", 1)[0]) for line in ways[1:]}))
        self.assertIn("Depot,Central Station,5", ways)
        self.assertIn("Central Station,5,5\n", self.read("depot.csv"))
        self.assertEqual(8, len(self.read("depot.csv").splitlines()))

    def test_pace(self) -> None:
        self.new(agency(), "--speed", "50", "--detour", "1")
        self.assertIn("Central Station,Harbour,6\n", self.read("deadheads.csv"))

    def test_the_report(self) -> None:
        text = self.new(agency(), "--depot", "52.09,-0.46")
        self.assertTrue(text.startswith(f"{self.town}: 602 trips on Wednesday 2026-09-02, between 7 terminals, from "))
        for line in ("\n  Sat 2026-09-05  270\n", "\n  Wed 2026-09-02  602  the day of this town\n",
                     "\n  Wed 2026-08-26    0  outside the calendars\n",
                     "agency/: 7 files of ", "trips.txt, stop_times.txt, calendar.txt, calendar_dates.txt: copied from agency/",
                     "desk.toml: Wednesday 2026-09-02, the busiest weekday from today on; a layover of 5 minutes",
                     "terminals.csv: 7 terminals of 14 stops where trips begin or end: 5 by parent_station, "
                     "1 by one name within 200 metres, 1 of a single stop",
                     "deadheads.csv: 56 ways from coordinates, straight line x 1.3 at 25 km/h, rounded up to minutes",
                     "depot.csv: from Depot to 7 terminals and home", "is each of these one place for a vehicle? Market, North",
                     "The longest ways in minutes: Church (church_n) to Edge of Town 53; ",
                     "Depot is a place there too, so a vehicle can go home between two trips"):
            with self.subTest(line):
                self.assertIn(line, text)
        self.assertTrue(text.endswith(f"\nNext: ./desk notes {self.town}\n"))
        self.assertNotIn("To mend", text)

    def test_a_date_that_is_asked(self) -> None:
        text = self.new(agency(), "--date", "2026-09-14")
        self.assertIn("160 trips on Monday 2026-09-14", text)
        self.assertIn("2026-09-14 is unlike other Mondays", text)
        self.assertEqual("20260914", tomllib.loads(self.read("desk.toml"))["date"])

    def test_a_date_without_trips(self) -> None:
        self.refused(agency(), "no trip runs on 2026-08-30; the calendars go from 2026-08-31 to 2026-11-22", "--date", "20260830")

    def test_a_depot_at_a_terminal(self) -> None:
        text = self.new(agency(), "--depot", "market_1")
        self.assertIn("the depot lies at the terminal Market, North", text)
        self.assertIn('"Market, North",0,0\n', self.read("depot.csv"))
        self.assertNotIn("Depot", self.read("deadheads.csv"))

    def test_a_depot_that_is_none(self) -> None:
        self.refused(agency(), "--depot nowhere: no stop", "--depot", "nowhere", status=2)

    def test_terminals_close_to_one_another_are_told(self) -> None:
        feed = agency()
        feed["stops.txt"] = feed["stops.txt"].replace("52.0,-0.5,,", "52.0904,-0.43,,")
        self.assertIn("these lie within 200 metres and are not one terminal: Market, North and Edge of Town", self.new(feed))

    @needs_program
    def test_the_program_plans_it(self) -> None:
        self.new(agency(90), "--depot", "52.09,-0.46")
        planned = run(["blocks", self.town])
        self.assertEqual(0, planned.status)
        numbers = re.fullmatch(rb"fixed \d+, (vehicles \d+, minutes \d+)\n", planned.text)
        self.assertIsNotNone(numbers, planned.text)
        self.assertEqual(b"yes, " + numbers[1] + b"\n", run(["check", self.town]).text)

    @needs_program
    def test_a_vehicle_goes_home_between_two_trips_where_no_direct_way_is_shorter(self) -> None:
        feed = {**demonstration(), "trips.txt": "service_id,trip_id\nFULLW,AB1\nFULLW,BFC2\n"}
        del feed["frequencies.txt"]
        self.new(feed, "--depot", "36.65,-116.975", "--speed", "60", status=1)
        ways = {(line[0], line[1]): int(line[2]) for line in (line.split(",") for line in self.read("deadheads.csv").splitlines()[1:])}
        first, last = "Bullfrog (Demo)", "Furnace Creek Resort (Demo)"
        self.assertIn(f",BFC2,{ways[first, last]}\n", self.blocks())
        (self.town / "deadheads.csv").write_text(self.read("deadheads.csv").replace(f"{first},{last},", f"{first},elsewhere,"))
        self.assertIn(f",BFC2,{ways[first, 'Depot'] + ways['Depot', last]}\n", self.blocks())

    def blocks(self) -> str:
        """The `blocks.csv` that the program writes."""
        self.assertEqual(0, run(["blocks", self.town]).status)
        return self.read("blocks.csv")


class Demonstration(NewTest):
    """The town of a feed with frequencies whose calendars are over."""

    def test_repeated_trips_are_written_out(self) -> None:
        text = self.new(demonstration(), status=1)
        self.assertIn("140 trips on Monday 2010-12-06, between 5 terminals", text)
        self.assertIn("3 trips that frequencies.txt repeats became 136, as ID@HH:MM:SS", text)
        self.assertIn("calendar.txt, calendar_dates.txt: copied from agency/", text)
        self.assertIn("frequencies.txt has no exact times of CITY1; CITY2; STBA", text)
        self.assertIn("the calendars end on 2010-12-31, before today", text)
        self.assertIn("\nCITY,FULLW,CITY1@09:50:00,,0,\n", self.read("trips.txt"))
        self.assertNotRegex(self.read("trips.txt") + self.read("stop_times.txt"), "STBA,[0-9]|CITY1,")
        self.assertEqual(demonstration()["trips.txt"], self.read("agency/trips.txt"))

    def test_a_file_of_frequencies_without_records(self) -> None:
        text = self.new({**demonstration(), "frequencies.txt": "trip_id,start_time,end_time,headway_secs\n"}, status=1)
        self.assertIn("trips.txt, stop_times.txt, calendar.txt, calendar_dates.txt: copied", text)
        self.assertEqual(demonstration()["trips.txt"], self.read("trips.txt"))

    def test_overlapping_periods_are_refused(self) -> None:
        self.refused({**demonstration(), "frequencies.txt": demonstration()["frequencies.txt"] + "STBA,21:00:00,23:00:00,600\n"},
                     "frequencies.txt record 12: the period of trip STBA overlaps that of record 1")

    @needs_program
    def test_the_program_plans_it(self) -> None:
        self.new(demonstration(), "--depot", "BEATTY_AIRPORT", status=1)
        self.assertEqual(0, run(["blocks", self.town]).status)
        self.assertEqual(0, run(["check", self.town]).status)
        self.assertNotIn(b"missing", run(["audit", self.town]).text)


class OtherFeeds(NewTest):
    """Feeds that lack something, or have too much of it."""

    def test_files_that_cannot_be_read_as_they_should(self) -> None:
        """The error says what was found beside what is missing."""
        trips, times = demonstration()["trips.txt"], demonstration()["stop_times.txt"]
        for name, content, message in (
                ("trips.txt", trips.replace(",", ";"), "no column service_id: semicolons stand between its fields. Write commas"),
                ("trips.txt", "\ufeff\ufeffservice_id,trip_id\n", "no column service_id: .* without the second byte-order mark in front"),
                ("stop_times.txt", times.encode("utf-16"), "no column trip_id: it is UTF-16. Save it as CSV in UTF-8"),
                ("calendar.txt", demonstration()["calendar.txt"].replace("20101231", "2010-12-31"),
                 "calendar.txt record 1: bad end_date: `end_date` has .*Write no hyphens")):
            with self.subTest(message):
                feed: Feed = {key: text for key, text in demonstration().items() if key != "frequencies.txt"}
                self.refused({**feed, name: content}, message)

    def test_no_calendars(self) -> None:
        feed = {name: text for name, text in agency().items() if not name.startswith("calendar")}
        text = self.new(feed, status=1)
        self.assertIn("1,032 trips without a date", text)
        self.assertIn("the feed has no calendar, so all of its trips are planned as if they ran on one day", text)
        self.assertNotIn("date", tomllib.loads(self.read("desk.toml")))
        self.town = self.room / "another"
        self.refused(feed, "--date: the feed has neither calendar.txt nor calendar_dates.txt", "--date", "20260901")

    def test_no_stops(self) -> None:
        feed = {name: text for name, text in agency().items() if name != "stops.txt"}
        self.assertIn("stops.txt: it is missing or has no stop", self.new(feed, status=1))
        self.assertEqual(sorted([*READ, "agency", "desk.toml"]), sorted(os.listdir(self.town)))

    def test_no_coordinates(self) -> None:
        feed = {**agency(), "stops.txt": re.sub(r",5\d\.\d+,-0\.\d+,", ",,,", agency()["stops.txt"])}
        self.assertIn("deadheads.csv: it is not drafted, since stops.txt has no coordinates", self.new(feed, "--depot", "52,0", status=1))
        self.assertFalse((self.town / "deadheads.csv").exists())

    def test_a_terminal_without_coordinates_and_a_stop_that_is_missing(self) -> None:
        stops = agency()["stops.txt"].replace("52.0,-0.5", ",").replace("market_2", "market_9")
        text = self.new({**agency(), "stops.txt": stops}, status=1)
        self.assertIn("no way leads to terminals without coordinates: market_2; Edge of Town", text)
        self.assertIn("stops.txt lacks 1 stop where trips begin or end: market_2", text)
        self.assertNotIn("Edge", self.read("deadheads.csv"))

    def test_coordinates_that_are_wrong(self) -> None:
        stops = agency()["stops.txt"].replace("52.0,-0.5", "-33.9,18.4")
        self.assertIn("deadheads.csv: 12 ways of more than 1,440 minutes left out", self.new({**agency(), "stops.txt": stops}, status=1))
        self.assertNotIn("Edge", self.read("deadheads.csv"))

    def test_more_trips_and_terminals_than_the_program_plans(self) -> None:
        with mock.patch("desk.new.steps.MOST_TRIPS", 601), mock.patch("desk.new.steps.MOST_PLACES", 6), mock.patch("desk.new.steps.MOST_BYTES", 2000):
            text = self.new(agency(), "--depot", "52,0", status=1)
        for line in ("trips.txt: 602 trips run on that day, and the program plans at most 601", "terminals.csv: 7 terminals are more than the 6",
                     "deadheads.csv: it is not drafted, since there are more than 6 terminals", "stop_times.txt: it has more than 2,000 bytes"):
            self.assertIn(line, text)
        self.assertFalse((self.town / "deadheads.csv").exists())

    def test_a_stop_id_that_is_not_utf8(self) -> None:
        feed = {name: text.encode() for name, text in agency().items()}
        for name in ("stops.txt", "stop_times.txt"):
            feed[name] = feed[name].replace(b"edge", b"\xe9dge")
        self.refused(feed, "stop_times.txt: a stop_id is not UTF-8")

    def test_names_that_are_not_utf8(self) -> None:
        feed = {name: text.encode() for name, text in agency().items()}
        feed["stops.txt"] = feed["stops.txt"].replace(b"Harbour", b"H\xe4fen")
        feed["trips.txt"] = feed["trips.txt"].replace(b"To harbour", b"To h\xe4fen")
        self.new(feed)
        self.assertIn("harbour_1,Häfen\n", self.read("terminals.csv"))

    @needs_program
    def test_the_program_reads_names_of_any_kind(self) -> None:
        called = ["St. Mary", 'The "Gate", North', "a\r\nb", "\t tab ", "#", "A/B", "s3", "same", "same", "", "Zürich 🚌", "x" * 300, "Depot", "'", "\\"]
        stops = table("stop_id,stop_name,stop_lat,stop_lon", [(f"s{number}", name, 52 + number / 50, 1) for number, name in enumerate(called)])
        ends = [*range(len(called)), 0]
        times = table("trip_id,arrival_time,departure_time,stop_id,stop_sequence", [
            (f"t{number}", time, time, f"s{stop}", stop_sequence) for number in range(len(called))
            for stop_sequence, (stop, time) in enumerate(((ends[number], "06:00:00"), (ends[number + 1], "07:00:00")))])
        trips = table("service_id,trip_id", [("W", f"t{number}") for number in range(len(called))])
        dates = "service_id,date,exception_type\nW,20260907,1\n"
        self.new({"stops.txt": stops, "trips.txt": trips, "stop_times.txt": times, "calendar_dates.txt": dates}, "--depot", "52,1")
        judged = run(["deficits", self.town])
        places = re.findall("^(.*) max [0-9]+ at [0-9:]+$", judged.text.decode(), flags=re.M)
        self.assertEqual((0, len(called) + 1), (judged.status, len(places)))
        self.assertEqual({"St. Mary", 'The "Gate", North', "a b", "tab", "#", "A/B", "s3 (s6)", "same (s7)", "same (s8)", "s9", "Zürich 🚌",
                          "x" * 300, "Depot", "Depot (garage)", "'", "\\"}, set(places))

    def test_the_depot_is_no_place_too_many(self) -> None:
        stops = "stop_id,stop_name,stop_lat,stop_lon\n" + "".join(f"s{number},Stop {number},{number / 1000},1\n" for number in range(512))
        trips = "service_id,trip_id\n" + "".join(f"W,t{number}\n" for number in range(256))
        times = "trip_id,arrival_time,departure_time,stop_id,stop_sequence\n" + "".join(
            f"t{number},06:00:00,06:00:00,s{number},1\nt{number},07:00:00,07:00:00,s{number + 256},2\n" for number in range(256))
        dates = "service_id,date,exception_type\nW,20260907,1\n"
        text = self.new({"stops.txt": stops, "trips.txt": trips, "stop_times.txt": times, "calendar_dates.txt": dates}, "--depot", "1,1")
        ways = [line.split(",") for line in self.read("deadheads.csv").splitlines()[1:]]
        self.assertEqual((512 * 511, {f"Stop {number}" for number in range(512)}), (len(ways), {way[0] for way in ways}))
        self.assertEqual(513, len(self.read("depot.csv").splitlines()))
        self.assertNotIn("is a place there too", text)


LINKS = [("4", "weekday_1_0_0300", "weekday_1_1_0320"), (" 4", "weekday_1_0_0300", "weekday_1_1_0320"),
         ("4", "weekday_1_0_0300", "weekday_1_1_0340"), ("4", "saturday_1_0_0360", "saturday_1_1_0400"),
         ("4", "weekday_2_0_0300", "saturday_2_1_0360"), ("2", "weekday_1_1_0320", "weekday_1_0_0340"), ("4", "", "weekday_1_0_0340")]
"""Transfers of the made agency: one twice, one of a trip that another one has, one of a Saturday, one of two days, and two of no link."""

KEPT = "weekday_1_0_0300,weekday_1_1_0320,keep"
"""The pair of a weekday that is kept."""


def with_links(*more: tuple[str, str, str]) -> Feed:
    """The made agency with transfers that link trips."""
    return agency() | as_agencies_write({"transfers.txt": table("transfer_type,from_trip_id,to_trip_id", [*LINKS, *more])})


class LinkedTrips(NewTest):
    """Trips that the agency links are kept together."""

    def pairs(self) -> list[str]:
        """The records of the pairs, in their order, below the header."""
        header, *records = self.read("pairs.csv").splitlines()
        self.assertEqual(header, "before,after,rule")
        return records

    def test_those_of_the_day(self) -> None:
        text = self.new(with_links())
        self.assertEqual(self.pairs(), [KEPT])
        self.assertIn("pairs.csv: 1 pair of trips kept together, which transfer_type 4 of transfers.txt links\n", text)
        self.assertIn("1 linked pair left out, since one trip runs without the other: weekday_2_0_0300 to saturday_2_1_0360\n", text)
        self.assertIn("1 linked pair left out, since one trip is kept with another one: weekday_1_0_0300 to weekday_1_1_0340\n", text)

    def test_those_of_all_day_types(self) -> None:
        self.new(with_links(), "--days", status=1)
        self.assertEqual(self.pairs(), [KEPT, "saturday_1_0_0360,saturday_1_1_0400,keep"])

    def test_a_planners_own_stay(self) -> None:
        """What is forbidden is not kept, and a trip that is kept with another one stays with it."""
        self.new(with_links())
        write_feed(self.town, {"pairs.csv": "rule,after,before\nnever,weekday_1_1_0320,weekday_1_0_0300\nkeep,b,weekday_2_0_0300\n"})
        text = self.new(with_links(("4", "weekday_2_0_0300", "weekday_2_1_0320"), ("4", "weekday_2_0_0320", "weekday_2_1_0340")), "--more")
        self.assertEqual(self.read("pairs.csv").splitlines()[3:],
                         ["keep,weekday_1_1_0340,weekday_1_0_0300", "keep,weekday_2_1_0340,weekday_2_0_0320"])
        self.assertIn("pairs.csv: 2 records added behind those that were there\n", text)

    def test_none_are_linked(self) -> None:
        self.new(agency() | {"transfers.txt": "from_stop_id,to_stop_id,transfer_type\nedge,edge,4\n"})
        self.assertFalse((self.town / "pairs.csv").exists())


BAD = table("trip_id,arrival_time,departure_time,stop_id,stop_sequence,timepoint", [
    ("still", "08:00:00", "08:00:00", "edge", 1, 1), ("still", "08:00:00", "08:00:00", "college_1", 2, 1),
    ("back", "23:50:00", "23:50:00", "edge", 1, 1), ("back", "00:10:00", "00:10:00", "college_1", 2, 1),
    ("alone", "08:00:00", "08:00:00", "edge", 1, 1),
    ("untimed", "08:00:00", "08:00:00", "edge", 1, 1), ("untimed", "", " ", "college_1", 2, 1),
    ("twice", "08:00:00", "08:00:00", "edge", 7, 1), ("twice", "08:10:00", "08:10:00", "between", 9, 1),
    ("twice", "08:20:00", "08:20:00", "college_1", 7, 1),
    ("stopless", "08:00:00", "08:00:00", "edge", 1, 1), ("stopless", "08:10:00", "08:10:00", "", 2, 1),
    ("stopless", "08:20:00", "08:20:00", "college_1", 3, 1),
    ("short", "08:00:00", "08:00:00", "edge", 1, 1), ("short", "08:20", "08:20:00", "college_1", 2, 1),
    ("again", "08:00:00", "08:00:00", "edge", 1, 1), ("again", "08:20:00", "08:20:00", "college_1", 2, 1),
    ("downward", "08:20:00", "08:20:00", "college_1", 9, 1), ("downward", "08:00:00", "08:00:00", "edge", 2, 1),
]).partition("\n")[2]
"""Rows of trips that the program refuses, but for the last two: one of them once, and one whose rows come backward."""

LEFT_OUT = {
    "still": "it departs at 08:00:00 and arrives at 08:00:00", "back": "it departs at 23:50:00 and arrives at 00:10:00",
    "alone": "it has one row in stop_times.txt", "rowless": "it has no row in stop_times.txt", "untimed": "it has no time at its last stop",
    "twice": "two rows of stop_times.txt have its stop_sequence 7", "stopless": "record 3108 of stop_times.txt has no stop_id",
    "short": "record 3111 of stop_times.txt has a bad arrival_time", "again": "record 1041 of trips.txt is a trip of that name too",
    "comma": "record 1045 of trips.txt has 8 fields and the header 6"}
"""Why each of them is left out."""


def with_bad_trips() -> Feed:
    """The made agency with trips that the program refuses."""
    feed = agency()
    names = ["still", "back", "alone", "rowless", "untimed", "twice", "stopless", "short", "again", "again", "again", "downward"]
    services = ["weekday"] * 9 + ["saturday", "weekday", "weekday"]
    records = [("line_5", service, name, "", 0, "") for name, service in zip(names, services)]
    rows = "".join(",".join(map(str, record)) + "\r\n" for record in records) + "line_5,weekday,comma,To A, B, and C,0,\r\n"
    return feed | {"trips.txt": feed["trips.txt"] + rows, "stop_times.txt": feed["stop_times.txt"] + BAD.replace("\n", "\r\n")}


class BadTrips(NewTest):
    """One trip that the program refuses does not stop the others."""

    def test_each_is_left_out_by_name_and_reason(self) -> None:
        text = self.new(with_bad_trips(), status=1)
        listed = text.partition("Left out, since the program would refuse them; agency/ has them:\n")[2].partition("\n\n")[0]
        expected = {f"{name}, service weekday: {why}" for name, why in LEFT_OUT.items()}
        self.assertEqual(expected, {line.strip() for line in listed.splitlines()})
        self.assertIn("trips.txt: 10 trips left out, as listed above, and 10 of them would run on that day", text)
        self.assertIn("604 trips on Wednesday 2026-09-02", text)
        for name in ("trips.txt", "stop_times.txt"):
            self.assertEqual(with_bad_trips()[name].encode(), (self.town / "agency" / name).read_bytes())
            self.assertNotRegex(self.read(name), "still|back|alone|rowless|untimed|twice|stopless|short|comma")
        self.assertEqual(["line_5,weekday,again,,0,", "line_5,saturday,again,,0,", "line_5,weekday,downward,,0,"],
                         self.read("trips.txt").splitlines()[-3:])

    @needs_program
    def test_the_program_plans_the_others(self) -> None:
        self.new(with_bad_trips(), status=1)
        self.assertEqual(0, run(["blocks", self.town]).status)

    @needs_program
    def test_the_program_refuses_each_of_them(self) -> None:
        """What is left out, and nothing else, is what the program refuses."""
        rows = {name: [line for line in BAD.splitlines() if line.startswith(f"{name},")] for name in (*LEFT_OUT, "downward")}
        for name, of_trip in rows.items():
            if name in ("again", "comma"):
                continue
            with self.subTest(name):
                feed = {"trips.txt": f"service_id,trip_id\nW,{name}\n",
                        "stop_times.txt": "trip_id,arrival_time,departure_time,stop_id,stop_sequence,timepoint\n" + "\n".join(of_trip) + "\n"}
                self.assertEqual(0 if name == "downward" else 3, run(["fixed", write_feed(self.room / name, feed)]).status)

    def test_a_repeated_trip_that_is_refused(self) -> None:
        feed = demonstration()
        feed["stop_times.txt"] = feed["stop_times.txt"].replace("STBA,6:20:00,6:20:00", "STBA,5:20:00,5:20:00")
        text = self.new(feed, status=1)
        self.assertIn("\n  STBA, service FULLW: it departs at 06:00:00 and arrives at 05:20:00\n", text)
        self.assertIn("2 trips that frequencies.txt repeats became 104", text)
        self.assertNotIn("so it is not repeated", text)

    def test_rows_of_no_trip(self) -> None:
        feed = agency()
        feed["stop_times.txt"] += "nobody,08:00:00,08:00:00,edge,1,1,one, two\r\n"
        self.assertIn("stop_times.txt: 1 record of no trip left out, which the program would refuse", self.new(feed))
        self.assertNotIn("nobody", self.read("stop_times.txt"))


class AllDays(NewTest):
    """Terminals, deadheads and the depot are drafted for all days of the calendar."""

    FEED = {
        "stops.txt": table("stop_id,stop_name,stop_lat,stop_lon", [("a", "Abbey", 52.0, 1.0), ("b", "Bridge", 52.1, 1.0), ("z", "Zoo", 52.2, 1.0),
                                                                   ("o", "Old Town", 52.3, 1.0)]),
        "calendar_dates.txt": table("service_id,date,exception_type", [("W", 20260907, 1), ("H", 20261026, 1)]),
        "trips.txt": table("service_id,trip_id", [("W", "w1"), ("W", "w2"), ("H", "h1"), ("never", "n1")]),
        "stop_times.txt": table("trip_id,arrival_time,departure_time,stop_id,stop_sequence", [
            (trip, time, time, stop, number) for trip, stops in (("w1", "ab"), ("w2", "ba"), ("h1", "az"), ("n1", "ao"))
            for number, (time, stop) in enumerate(zip(("06:00:00", "07:00:00"), stops))])}
    """A feed in which the holiday alone has trips to the zoo, and no day has some to the old town."""

    def test_another_date_needs_no_other_draft(self) -> None:
        text = self.new(self.FEED, "--depot", "52,1.01")
        self.assertIn("2 trips on Monday 2026-09-07, between 2 terminals", text)
        self.assertEqual("stop_id,terminal\na,Abbey\nb,Bridge\nz,Zoo\n", self.read("terminals.csv"))
        self.assertEqual({"Abbey", "Bridge", "Zoo"}, {line.split(",")[0] for line in self.read("depot.csv").splitlines()[1:]})
        self.assertEqual(4 * 3, len(self.read("deadheads.csv").splitlines()) - 1)


class More(NewTest):
    """`--more` adds what a date or a feed needs, and keeps what a planner has corrected."""

    OWN = {
        "desk.toml": '# mine\ndate = "20260907"  # a Monday\nlayover = 3\n',
        "terminals.csv": "terminal,note,stop_id\nOld Abbey,,a\nBridge,mine,b",
        "deadheads.csv": "minutes,from,to\r\n99,Old Abbey,Bridge\r\n",
        "depot.csv": "terminal,pull_out,pull_in\nOld Abbey,3,4\nBridge,5,6\n",
        "edits.csv": "cancel,w1\n"}
    """What the planner has corrected in a town of the first day: a name, minutes, columns in another order, and no way back."""

    def setUp(self) -> None:
        super().setUp()
        self.feed = AllDays.FEED
        write_feed(self.town, {**self.feed, **self.OWN})

    def test_a_feed_with_another_terminal(self) -> None:
        text = self.new(self.feed, "--more", "--depot", "52,1.01")
        self.assertEqual(self.OWN["desk.toml"], self.read("desk.toml"))
        self.assertEqual(self.OWN["terminals.csv"] + "\nZoo,,z\n", self.read("terminals.csv"))
        ways = self.read("deadheads.csv").splitlines()
        self.assertEqual(["minutes,from,to", "99,Old Abbey,Bridge"], ways[:2])
        names, fresh = ("Old Abbey", "Bridge", "Zoo", "Depot"), {"Zoo", "Depot"}
        expected = [(start, end) for start in names for end in names if start != end and fresh & {start, end}]
        self.assertEqual(sorted(expected), sorted(tuple(way.split(",")[1:]) for way in ways[2:]))
        # 22.25 km by 1.3 at 25 km/h are 69.4 minutes
        self.assertEqual(self.OWN["depot.csv"] + "Zoo,70,70\n", self.read("depot.csv"))
        self.assertEqual("cancel,w1\n", self.read("edits.csv"))
        self.assertIn("terminals.csv: 1 record added behind those that were there", text)

    def test_another_date(self) -> None:
        self.new(self.feed, "--more", "--depot", "52,1.01", "--date", "20261026")
        self.assertEqual(self.OWN["desk.toml"].replace("20260907", "20261026"), self.read("desk.toml"))
        before = self.tree()
        text = self.new(self.feed, "--more", "--depot", "52,1.01")
        self.assertEqual(before, self.tree(), "nothing more is needed")
        self.assertIn("deadheads.csv: as it was", text)
        ended, _, errors = self.desk("new", self.room / "feed.zip", self.town, "--more", "--date", "20261027")
        self.assertEqual((1, before), (ended, self.tree()))
        self.assertIn("no trip runs on 2026-10-27", errors)

    def test_without_a_depot_the_missing_records_are_told(self) -> None:
        self.assertIn("depot.csv: 1 terminal without a record: Zoo. Say by --depot where the depot is", self.new(self.feed, "--more", status=1))
        self.assertEqual(self.OWN["depot.csv"], self.read("depot.csv"))

    def test_a_feed_without_trips_on_the_date(self) -> None:
        feed = {**self.feed, "calendar_dates.txt": "service_id,date,exception_type\nW,20270907,1\n"}
        self.assertIn("no trip runs on 2026-09-07; the calendars go from 2027-09-07 to 2027-09-07", self.new(feed, "--more", status=1))

    def test_what_is_no_town(self) -> None:
        self.town = self.room / "nowhere"
        self.refused(self.feed, "nowhere is not there: without --more it is made", "--more", status=2)

    @needs_program
    def test_a_terminal_is_never_forgotten_again(self) -> None:
        """A town of one day, as older drafts made it: with another date the depot is next door, and with --more it is not."""
        self.new(self.feed, "--more", "--depot", "52,1.01", "--date", "20261026")
        (self.town / "edits.csv").unlink()
        # from Old Abbey to the zoo: 3 minutes out and 70 home
        self.assertEqual(b"fixed 1, vehicles 1, minutes 73\n", run(["blocks", self.town]).text)


@needs_program
class Layovers(NewTest):
    """The greatest layovers up to 5 with which the blocks of today can run are drafted."""

    def feed(self, *trips: tuple[str, str, str, str]) -> Feed:
        """A feed of trips of one block: the first stop with its time, and the last one with its time."""
        return AllDays.FEED | {
            "trips.txt": table("service_id,trip_id,block_id", [("W", f"t{number}", "X") for number in range(len(trips))]),
            "stop_times.txt": table("trip_id,arrival_time,departure_time,stop_id,stop_sequence", [
                (f"t{number}", f"{time}:00", f"{time}:00", stop, at) for number, trip in enumerate(trips)
                for at, (stop, time) in enumerate(((trip[0], trip[1]), (trip[2], trip[3])))])}

    def test_what_today_leaves(self) -> None:
        """Three minutes at the bridge, and ten at the abbey."""
        text = self.new(self.feed(("a", "06:00", "b", "07:00"), ("b", "07:03", "a", "08:00"), ("a", "08:10", "b", "09:00"), ("b", "09:04", "a", "10:00")))
        said = tomllib.loads(self.read("desk.toml"))
        self.assertEqual((5, {"Bridge": 3}), (said["layover"], said["layovers"]))
        self.assertIn("a vehicle stays 5 minutes at each terminal but Bridge 3: with more the blocks of today would not run, as `audit` says", text)
        self.assertNotIn("not fit", run(["audit", self.town]).text.decode())

    def test_an_empty_way_between(self) -> None:
        """From the bridge to the abbey 11.12 km by 1.3 at 25 km/h are 34.7 minutes: 35 of 37, which leaves 2 at the bridge."""
        self.new(self.feed(("a", "06:00", "b", "07:00"), ("a", "07:37", "b", "08:00")))
        self.assertEqual({"Bridge": 2}, tomllib.loads(self.read("desk.toml"))["layovers"])

    def test_pairs_that_no_layover_mends_change_nothing(self) -> None:
        text = self.new(self.feed(("a", "06:00", "b", "07:00"), ("b", "06:50", "a", "08:00"), ("a", "08:04", "b", "09:00")))
        self.assertEqual({"Abbey": 4}, tomllib.loads(self.read("desk.toml"))["layovers"])
        self.assertIn("but for 1 pair of trips that no layover mends", text)

    def test_today_fits_as_it_is(self) -> None:
        self.assertIn("the blocks of today can run so, as `audit` says", self.new(self.feed(("a", "06:00", "b", "07:00"), ("b", "07:05", "a", "08:00"))))


class Settings(NewTest):
    """The draft of `desk.toml`, where nothing is known of the blocks of today."""

    def setUp(self) -> None:
        super().setUp()
        patch = mock.patch("desk.new.layovers.fitting", side_effect=DeskError("nobody is asked"))
        patch.start()
        self.addCleanup(patch.stop)

    def test_what_is_said_and_what_is_explained(self) -> None:
        self.new(agency())
        text = self.read("desk.toml")
        self.assertEqual({"date": "20260902", "layover": 5, "early": 0, "late": 0, "block_prefix": "B", "layovers": {}, "block_names": "stated",
                          "prefer": ["stated", "line", "waiting"]}, tomllib.loads(text))
        for key in ("date =", "services =", "layover =", "early =", "late =", "block_prefix =", "block_names =", "prefer =", "[layovers]",
                    "[classes]"):
            at = next(number for number, line in enumerate(text.splitlines()) if line.removeprefix("# ").startswith(key))
            self.assertTrue(text.splitlines()[at - 1].startswith("# ") or key == "late =", key)

    def examples_taken(self, text: str) -> str:
        """The text with the marks before its examples taken away."""
        return re.sub(r'^# (".*" = |\S+ = |\[)', r"\1", text, flags=re.M)

    def test_its_examples_are_in_form(self) -> None:
        self.new(agency())
        said = tomllib.loads(self.examples_taken(self.read("desk.toml")))
        self.assertEqual((["weekday", "school"], {"Central Station": 8}, {"line_1": "big"}), (said["services"], said["layovers"], said["classes"]))
        hostile = settings_text(None, ['a"b\\', "c\nd = 1\x7f", "caf\udce9"], '"]\n', "\\")
        self.assertEqual((['a"b\\', "c?d = 1?", "caf?"], {'"]?': 8}, {"\\": "big"}),
                         tuple(tomllib.loads(self.examples_taken(hostile))[key] for key in ("services", "layovers", "classes")))
        tomllib.loads(settings_text(None, [], "", ""))

    def test_a_feed_without_blocks_has_what_is_preferred_as_an_example(self) -> None:
        """So it has names of blocks, but not for day types: the blocks of one are stated for another."""
        feed = agency()
        feed["trips.txt"] = re.sub(r"(?m),[^,\r\n]*(?=\r$)", "", feed["trips.txt"])
        self.new(feed)
        text = self.read("desk.toml")
        self.assertEqual({"prefer", "block_names"} & set(tomllib.loads(text)), set())
        self.assertEqual(["stated", "line", "waiting"], tomllib.loads(self.examples_taken(text))["prefer"])
        self.assertIn("# This feed states no blocks of today. `./desk adopt` makes those of a plan the stated ones.\n", text)
        with mock.patch("desk.new.days.today", return_value=FIRST_DAY), mock.patch("desk.new.days.fitting", side_effect=DeskError("none")):
            self.new(feed, "--days", "--replace")
            unstated = tomllib.loads(self.read("desk.toml"))
            self.new(agency(), "--days", "--replace")
        self.assertEqual((unstated["block_names"], "prefer" in unstated), ("stated", False))
        self.assertEqual(["stated", "line", "waiting"], tomllib.loads(self.read("desk.toml"))["prefer"])

    @needs_program
    def test_the_program_reads_its_examples(self) -> None:
        self.new(agency(90))
        (self.town / "desk.toml").write_text(self.examples_taken(self.read("desk.toml")))
        self.assertIn(b"\nCentral Station/big max ", b"\n" + run(["deficits", self.town]).text)


class Replaced(NewTest):
    """What becomes of a town that is there."""

    def test_nothing_is_written_over_without_replace(self) -> None:
        for name in ("trips.txt", "desk.toml", "deadheads.csv", "depot.csv", "agency"):
            write_feed(self.town, {name: "mine"})
            with self.subTest(name):
                status, text, errors = self.desk("new", zip_feed(self.room / "feed.zip", agency()), self.town)
                self.assertEqual((1, ""), (status, text))
                self.assertRegex(errors, f"^desk: .*town has {name} already: with --replace they are written anew\n$")
                self.assertEqual({name: b"mine"}, self.tree())
            (self.town / name).unlink()
        self.new(agency())

    def test_with_replace_all_is_anew_but_what_is_not_drafted(self) -> None:
        self.new(agency(), "--depot", "52,0")
        write_feed(self.town, {"edits.csv": "show\n", "deadheads.csv": "mine", "blocks.csv": "old", "journal.db": "kept"})
        depot = self.read("depot.csv")
        feed = {name: text for name, text in demonstration().items() if name != "calendar_dates.txt"}
        text = self.new(feed, "--replace", status=1)
        self.assertIn("depot.csv, edits.csv, journal.db: left as they were", text)
        self.assertEqual(("show\n", "old", "kept", depot), tuple(self.read(name) for name in ("edits.csv", "blocks.csv", "journal.db", "depot.csv")))
        self.assertFalse((self.town / "calendar_dates.txt").exists())
        self.assertEqual(sorted(feed), sorted(os.listdir(self.town / "agency")))
        self.assertIn("Bullfrog", self.read("deadheads.csv"))

    def test_the_agency_of_a_town_is_a_feed_of_it(self) -> None:
        self.new(demonstration(), status=1)
        before = self.tree()
        status, _, errors = self.desk("new", self.town / "agency", self.town, "--replace")
        self.assertEqual((1, ""), (status, errors))
        self.assertEqual(before, self.tree())

    def test_a_town_is_no_feed_of_itself(self) -> None:
        write_feed(self.town, demonstration())
        status, _, errors = self.desk("new", self.town, self.room / "x" / ".." / "town", "--replace")
        self.assertEqual(2, status)
        self.assertIn("is the feed itself", errors)

    def test_a_feed_that_is_refused_leaves_the_town(self) -> None:
        self.new(agency())
        before = self.tree()
        status, _, errors = self.desk("new", write_feed(self.room / "bad", {**agency(), "stop_times.txt": "x\n"}), self.town, "--replace")
        self.assertEqual(1, status)
        self.assertRegex(errors, '^desk: stop_times.txt: no column trip_id: its first record "x" is no header. Write `trip_id,.*` above it.\n$')
        self.assertEqual(before, self.tree())
        self.assertEqual(["bad", "feed.zip", "town"], sorted(os.listdir(self.room)))

    def test_folders_that_cannot_be_made(self) -> None:
        (self.room / "file").touch()
        feed = zip_feed(self.room / "feed.zip", agency())
        for town, message in ((self.room / "file", "file is no folder"), (self.room / "file" / "town", "Not a directory"),
                              (self.room / "nowhere" / "town", "cannot be made: No such file")):
            with self.subTest(message):
                status, text, errors = self.desk("new", feed, town)
                self.assertEqual((1, ""), (status, text))
                self.assertIn(message, errors)
        (self.room / "link").symlink_to("nothing")
        self.assertEqual(0, self.desk("new", feed, self.room / "link")[0])

    def test_an_empty_folder_is_filled(self) -> None:
        self.town.mkdir()
        mode = self.town.stat().st_mode
        self.new(agency())
        self.assertEqual(mode, self.town.stat().st_mode)
        self.town = self.room / "other"
        self.new(agency())
        self.assertEqual(mode, self.town.stat().st_mode)


class RandomBytes(NewTest):
    """Damaged feeds end in words, with a town or with none."""

    def tried(self, feed: Path, *words: str) -> bool:
        """Whether a town is made of a feed, which it is exactly where there is no error."""
        self.town = self.room / f"town {feed.name}"
        status, text, errors = self.desk("new", feed, self.town, *words)
        self.assertIn(status, (0, 1, 2))
        self.assertEqual((errors == "", errors == ""), (self.town.exists(), text != ""))
        self.assertLessEqual(errors.count("\n"), 1)
        self.assertEqual([], [name for name in os.listdir(self.room) if name.startswith(".")])
        return self.town.exists()

    def damaged(self, content: bytes, chosen: random.Random) -> bytes:
        """Bytes with some of them changed, put in or taken out."""
        changed = bytearray(content)
        for _ in range(chosen.randrange(1, 6)):
            at = chosen.randrange(len(changed) + 1)
            put = chosen.choice((b",", b'"', b"\n", b"\r", b"\0", b"\xff", b"-", b"9", b"@", chosen.randbytes(8)))
            changed[at:at + chosen.choice((0, 0, 1, 1, 30))] = put
        return bytes(changed)

    def test_files_of_a_folder(self) -> None:
        made = {name: text.encode() for name, text in demonstration().items()}
        towns = 0
        for seed in range(60):
            chosen = random.Random(seed)
            names = chosen.sample(sorted(made), 2)
            changed = {name: self.damaged(made[name], chosen) for name in names}
            if chosen.random() < 0.3:
                changed[names[0]] = chosen.randbytes(chosen.randrange(2000))
            feed = write_feed(self.room / f"feed {seed}", {**made, **changed})
            with self.subTest(seed=seed):
                towns += self.tried(feed, "--depot", chosen.choice(("AMV", "36.9,-116.8")))
        self.assertTrue(0 < towns < 60, towns)

    @needs_program
    def test_no_trip_of_a_town_is_refused(self) -> None:
        """Fields of single rows are damaged, and the program takes the trips that `new` leaves."""
        towns = left = 0
        for seed in range(40):
            chosen = random.Random(seed)
            feed = write_feed(self.room / f"feed {seed}", {name: self.odd(text, chosen) if name in ("trips.txt", "stop_times.txt") else text
                                                           for name, text in demonstration().items() if name != "frequencies.txt"})
            with self.subTest(seed=seed):
                if self.tried(feed):
                    said = run(["deficits", self.town])
                    self.assertEqual((0, b""), (said.status, said.errors), said.text)
                    towns += 1
                    left += len(self.read("trips.txt").splitlines()) < 12
        self.assertTrue(towns > 25 and left > 15, (towns, left))

    def odd(self, text: str, chosen: random.Random) -> str:
        """A file with some of its fields changed, rows twice, and rows gone."""
        rows = [line.split(",") for line in text.splitlines()]
        for _ in range(chosen.randrange(1, 5)):
            row = rows[chosen.randrange(1, len(rows))]
            at = chosen.randrange(len(row))
            row[at] = chosen.choice(("", " ", "1", "0", "x", "25:61:00", "7:00:00", "a,b", "\ufeff", row[at] + " ", row[at] + ",", "AB1", "FULLW"))
        if chosen.random() < 0.3:
            rows.append(chosen.choice(rows[1:]))
        if chosen.random() < 0.3:
            del rows[chosen.randrange(1, len(rows))]
        return "\n".join(",".join(row) for row in rows) + chosen.choice(("\n", "", "\n,,,\n", "\n\n"))

    def test_zips(self) -> None:
        made = zip_feed(self.room / "feed.zip", demonstration()).read_bytes()
        towns = 0
        for seed in range(60):
            chosen = random.Random(seed)
            path = self.room / f"{seed}.zip"
            path.write_bytes(self.damaged(made, chosen) if chosen.random() < 0.9 else chosen.randbytes(chosen.randrange(3000)))
            with self.subTest(seed=seed):
                towns += self.tried(path)
        self.assertTrue(0 < towns < 60, towns)
