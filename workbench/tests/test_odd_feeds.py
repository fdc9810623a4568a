"""Ten odd feeds, as agencies hand them out: `new` and `notes` tell of each in words, and what can be planned is planned."""
from __future__ import annotations

import datetime
import unittest
from unittest import mock

from desk.program import run
from tests.feeds import Feed, FolderTest, needs_program, table, zip_feed

TIMES = "trip_id,arrival_time,departure_time,stop_id,stop_sequence"
STOPS = "stop_id,stop_name,stop_lat,stop_lon,parent_station"

PLAIN: Feed = {
    "stops.txt": table(STOPS, [("st", "Station", 52.0, 1.0, ""), ("st_a", "Bay A", 52.0, 1.0, "st"), ("st_b", "Bay B", 52.0, 1.0, "st"),
                               ("mill", "Mill", 52.02, 1.0, ""), ("zoo", "Zoo", 52.04, 1.0, "")]),
    "calendar.txt": "service_id,monday,tuesday,wednesday,thursday,friday,saturday,sunday,start_date,end_date\n"
                    "W,1,1,1,1,1,0,0,20260901,20261231\n",
    "trips.txt": "route_id,service_id,trip_id,trip_headsign,block_id\nR,W,w1,Mill,X\nR,W,w2,Station,X\nR,W,w3,Zoo,Y\n",
    "stop_times.txt": TIMES + "\nw1,06:00:00,06:00:00,st_a,1\nw1,06:20:00,06:20:00,mill,2\nw2,06:30:00,06:30:00,mill,1\n"
                              "w2,06:50:00,06:50:00,st_b,2\nw3,07:00:00,07:00:00,st_b,1\nw3,07:20:00,07:20:00,zoo,2\n"}
"""A feed of three trips that has nothing odd."""


def changed(**files: str) -> Feed:
    """The plain feed with other files, as `stop_times="..."`."""
    return PLAIN | {f"{name}.txt": text for name, text in files.items()}


ODD: dict[str, tuple[Feed, int, tuple[str, ...]]] = {
    "blank lines and records of commas alone": (
        changed(calendar=PLAIN["calendar.txt"] + "\n,,,,,,,,,\n", trips="\n" + PLAIN["trips.txt"] + ",,,,\n\n"), 3,
        ("trips.txt: 1 record of commas alone left out", "calendar.txt: 1 record of commas alone left out")),
    "a comma at the end of each line": (
        changed(stop_times=PLAIN["stop_times.txt"].replace("\n", ",\n").replace("sequence,", "sequence")), 3,
        ("stop_times.txt: 6 records with a comma too many at the end, which is left out",)),
    "frequencies, some with exact times": (
        changed(frequencies="trip_id,start_time,end_time,headway_secs,exact_times\nw1,06:00:00,08:00:00,1800,0\nw2,06:30:00,08:30:00,3600,1\n"), 7,
        ("2 trips that frequencies.txt repeats became 6", "frequencies.txt has no exact times of w1")),
    "trips of one stop": (
        changed(trips=PLAIN["trips.txt"] + "R,W,one,,\nR,W,none,,\n", stop_times=PLAIN["stop_times.txt"] + "one,08:00:00,08:00:00,zoo,1\n"), 3,
        ("one, service W: it has one row in stop_times.txt", "none, service W: it has no row in stop_times.txt",
         "2 trips left out, as listed above, and 2 of them would run on that day")),
    "no parent stations": (
        changed(stops=PLAIN["stops.txt"].replace(",st\n", ",\n").replace("Bay A", "Station").replace("Bay B", "Station")), 3,
        ("1 by one name within 200 metres, 2 of a single stop", "is each of these one place for a vehicle? Station")),
    "dates alone, without a calendar": (
        {name: text for name, text in changed(calendar_dates="service_id,date,exception_type\nW,20260907,1\nW,20260909,1\n").items()
         if name != "calendar.txt"}, 3, ("calendar_dates.txt: it is alone, without calendar.txt: 2 dates in it, and trips run on no others",)),
    "a stop 20 km off the rest": (
        changed(stops=PLAIN["stops.txt"].replace("52.04", "52.2")), 3,
        ("these lie far from all others: Zoo 20 km. Are their coordinates in stops.txt right?",)),
    "a trip over midnight that begins anew": (
        changed(stop_times=PLAIN["stop_times.txt"].replace("07:00:00", "23:50:00").replace("07:20:00", "00:10:00")), 2,
        ("w3, service W: it departs at 23:50:00 and arrives at 00:10:00",)),
    "a service of no calendar": (
        changed(trips=PLAIN["trips.txt"].replace("R,W,w3", "R,old,w3")), 2, ("trips.txt: 1 trip of services that no calendar has never run",)),
    "a headsign with a comma, and a stop that is missing": (
        changed(trips=PLAIN["trips.txt"] + "R,W,w4,Mill, North,X\n", stops=PLAIN["stops.txt"].replace("zoo,", "zu,")), 3,
        ("w4, service W: record 4 of trips.txt has 6 fields and the header 5", "stops.txt lacks 1 stop where trips begin or end: zoo")),
}
"""Each feed with how many trips are planned, and words of the report."""


class OddFeeds(FolderTest):
    """The ten feeds."""

    def test_each_is_told_about_in_words(self) -> None:
        for name, (feed, trips, words) in ODD.items():
            with self.subTest(name), mock.patch("desk.new.steps.today", return_value=datetime.date(2026, 9, 7)):
                _, text, errors = self.desk("new", zip_feed(self.room / "feed.zip", feed), self.room / name)
                text = " ".join(text.split())
                self.assertEqual("", errors)
                self.assertIn(f"{name}: {trips} trip", text)
                for word in words:
                    self.assertIn(word, text)

    def test_nothing_odd_is_told_of_a_plain_feed(self) -> None:
        with mock.patch("desk.new.steps.today", return_value=datetime.date(2026, 9, 7)):
            status, text, _ = self.desk("new", zip_feed(self.room / "feed.zip", PLAIN), self.room / "plain")
        self.assertEqual(status, 0)
        self.assertNotRegex(text, "left out|Left out|far from|alone|never run|To mend")

    @needs_program
    def test_each_is_planned(self) -> None:
        for name, (feed, _, _) in ODD.items():
            with self.subTest(name), mock.patch("desk.new.steps.today", return_value=datetime.date(2026, 9, 7)):
                town = self.room / name
                self.desk("new", zip_feed(self.room / "feed.zip", feed), town)
                self.assertEqual((run(["blocks", town]).status, run(["check", town]).status), (0, 0))
                self.assertNotIn("refused", self.desk("notes", town)[1])


if __name__ == "__main__":
    unittest.main()
