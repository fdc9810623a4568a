"""The feed that is handed over: what stands in it, what is left out, and that nothing is written which does not read back."""
from __future__ import annotations

import csv
import io
import unittest
import zipfile
from itertools import pairwise
from unittest import mock

from desk.program import run
from desk.unpacking import unpack
from tests.feeds import demonstration, needs_program, table, write_feed, zip_feed
from tests.publishing import PublishingTest
from tests.small_town import small_town, two_trips

EXTRAS = "name,route_id,headsign\nE1,line_1,Relief\n"
SCRIPT = "shift,wd_3_i_0850,+1\ncancel,sc_S_o_0825\nextra,E1,Station,Oakfield,10:00,10:20\n"
"""Edits of a planner: a trip a minute later, one that does not run, and a relief bus."""


@needs_program
class PublishTest(PublishingTest):
    """The zip of a town."""

    def rows(self, name: str) -> list[dict[str, str]]:
        """The records of a file of the zip."""
        with zipfile.ZipFile(self.out) as archive:
            return list(csv.DictReader(io.StringIO(archive.read(name).decode("utf-8-sig"))))

    def trip(self, name: str) -> dict[str, str]:
        """The one record of a trip in the zip."""
        row, = [row for row in self.rows("trips.txt") if row["trip_id"] == name]
        return row

    def test_the_plan_of_a_script(self) -> None:
        """Shifted, cancelled and extra trips; the files that the plan does not change are there byte for byte."""
        small_town(self.town, SCRIPT)
        write_feed(self.town, {"extras.csv": EXTRAS})
        status, text, errors = self.publish()
        self.assertEqual((status, errors), (0, ""))
        self.assertIn("188 trips of the day in 10 blocks; read again, `audit` says least", text)
        self.assertIn("extra trips in it, of service extra-20260907: E1", text)
        self.assertIn("cancelled trips are not in it, on no day of their services: sc_S_o_0825", text)
        extra = self.trip("E1")
        self.assertEqual([extra[name] for name in ("route_id", "service_id", "trip_headsign")], ["line_1", "extra-20260907", "Relief"])
        self.assertRegex(extra["block_id"], "^V[0-9]+$")
        times = [(row["departure_time"], row["stop_id"]) for row in self.rows("stop_times.txt") if row["trip_id"] == "E1"]
        self.assertEqual(([time for time, _ in times], times[0][1][:4]), (["10:00:00", "10:20:00"], "stn_"))
        self.assertIn({"service_id": "extra-20260907", "date": "20260907", "exception_type": "1"}, self.rows("calendar_dates.txt"))
        names = {row["trip_id"] for name in ("trips.txt", "stop_times.txt") for row in self.rows(name)}
        self.assertNotIn("sc_S_o_0825", names)
        with open(self.town / "stop_times.txt", newline="", encoding="utf-8") as file:
            published = [row["departure_time"] for row in csv.DictReader(file) if row["trip_id"] == "wd_3_i_0850"]
        shifted = [row["departure_time"] for row in self.rows("stop_times.txt") if row["trip_id"] == "wd_3_i_0850"]
        self.assertEqual((published[0], shifted[0]), ("8:50:00", "08:51:00"))
        with zipfile.ZipFile(self.out) as archive:
            self.assertEqual(archive.read("stops.txt"), (self.town / "stops.txt").read_bytes())
            self.assertNotIn("desk.toml", archive.namelist())

    def test_rules_of_pairs_hold_where_it_is_read_again(self) -> None:
        """A feed without its rules would have a plan with fewer minutes."""
        small_town(self.town)
        run(["blocks", self.town])
        with open(self.town / "blocks.csv", newline="", encoding="utf-8") as file:
            trips = [(row["trip_id"], row["deadhead"]) for row in csv.DictReader(file)]
        never = [(before, after) for (before, _), (after, _) in pairwise(trips)]
        write_feed(self.town, {"pairs.csv": table("before,after,rule", [(*pair, "never") for pair in never[::3]])})
        status, text, errors = self.publish()
        self.assertEqual((status, errors), (0, ""))
        self.assertIn("read again, `audit` says least", text)
        self.assertEqual(run(["blocks", self.town]).status, 0)
        with open(self.town / "blocks.csv", newline="", encoding="utf-8") as file:
            rows = list(csv.DictReader(file))
        linked = {(one["trip_id"], other["trip_id"]) for one, other in pairwise(rows) if one["block_id"] == other["block_id"]}
        self.assertEqual(linked.intersection(never[::3]), set())

    def test_other_programs_read_it_as_a_feed(self) -> None:
        """`new` makes a town of the zip, whose blocks of today are the plan: with the planner's files they are least."""
        small_town(self.town, SCRIPT)
        write_feed(self.town, {"extras.csv": EXTRAS})
        self.publish()
        other = self.room / "other"
        other.mkdir()
        unpack(self.out, other)
        for name in ("desk.toml", "terminals.csv", "deadheads.csv", "depot.csv"):
            (other / name).write_bytes((self.town / name).read_bytes())
        self.assertEqual(run(["audit", other]).text.splitlines()[-1], b"least")

    def test_an_extra_trip_at_a_terminal_of_other_days(self) -> None:
        """Its layover there is 0. So the vehicle of U1, free at 06:35, is at the yard at 06:40 and from 06:55 on runs to U2 at 07:00."""
        two_trips(self.town, {"desk.toml": 'date = "20260907"\nlayover = 5\n', "calendar_dates.txt": "service_id,date,exception_type\nW,20260907,1\n",
                              "deadheads.csv": "from,to,minutes\nB,Yard,5\nYard,C,5\n", "terminals.csv": "stop_id,terminal\nyard_1,Yard\n",
                              "edits.csv": "extra,E1,Yard,Yard,06:40,06:55\n", "extras.csv": "name,route_id\nE1,R\n"})
        status, text, errors = self.publish()
        self.assertEqual((status, errors), (0, ""))
        self.assertIn("3 trips of the day in 1 block;", text)
        self.assertEqual([row["stop_id"] for row in self.rows("stop_times.txt") if row["trip_id"] == "E1"], ["yard_1", "yard_1"])

    def test_a_list_of_services(self) -> None:
        """The service of the extra trip is none of the list."""
        small_town(self.town, SCRIPT)
        toml = (self.town / "desk.toml").read_text().replace('date = "20260907"', 'date = "20260907"\nservices = ["weekday", "school"]')
        write_feed(self.town, {"extras.csv": EXTRAS, "desk.toml": toml})
        self.assertEqual(self.publish()[0], 0)

    def test_repeated_trips_stand_one_by_one(self) -> None:
        feed = demonstration() | {"transfers.txt": "from_stop_id,to_stop_id,transfer_type,from_trip_id\nEMSI,AMV,0,\nEMSI,AMV,1,CITY1\n"}
        self.desk("new", zip_feed(self.room / "demo.zip", feed), self.town)
        status, text, errors = self.publish()
        self.assertEqual((status, errors), (0, ""))
        self.assertIn("frequencies.txt: 11 records of trips that are not in it left out", text)
        self.assertIn("transfers.txt: 1 record of trips that are not in it left out", text)
        with zipfile.ZipFile(self.out) as archive:
            self.assertEqual(sorted(archive.namelist()), sorted(set(feed) - {"frequencies.txt"}))
        self.assertEqual(len(self.rows("transfers.txt")), 1)
        self.assertEqual(self.trip("CITY1@06:30:00")["block_id"][0], "B")

    def test_an_extra_trip_without_a_record_is_left_out(self) -> None:
        """One that is a block of its own may be missing. Between two others it takes their way, and nothing is written."""
        two_trips(self.town, {"desk.toml": 'date = "20260907"\n', "calendar_dates.txt": "service_id,date,exception_type\nW,20260907,1\n",
                              "edits.csv": "extra,E1,C,C,07:10,07:20\n"})
        status, text, errors = self.publish()
        self.assertEqual(status, 1)
        self.assertEqual(errors, "desk: extra trip E1 is left out: extras.csv has no record of it: write `E1,ROUTE,HEADSIGN` below "
                                 "`name,route_id,headsign`\n")
        self.assertIn("2 trips of the day", text)
        self.out.unlink()
        (self.town / "deadheads.csv").unlink()
        write_feed(self.town, {"edits.csv": "extra,E1,B,C,06:40,06:50\n"})
        self.refused("nothing is written: `audit` of the feed does not say `least`: no vehicle makes U2 after U1; extra trip E1 is left out: "
                     "extras.csv has no record of it")
        write_feed(self.town, {"extras.csv": "name,route_id\nE1,R\n"})
        self.assertEqual(self.publish()[0], 0)
        self.assertEqual(self.trip("E1")["block_id"], self.trip("U2")["block_id"])

    def test_extra_trips_that_cannot_stand_in_a_feed(self) -> None:
        days = "service_id,date,exception_type\nW,20260907,1\nS,20260908,1\n"
        trips = "route_id,service_id,trip_id\nR,W,U1\nR,W,U2\nR,S,S1\n"
        for files, words in (({"extras.csv": "name,route_id\nE1,r\n"}, '"r" differs from "R" by capitals alone'),
                             ({"desk.toml": ""}, "desk.toml has no date"), ({"edits.csv": "extra,S1,C,C,08:00,08:20\n", "trips.txt": trips,
                                                                             "extras.csv": "name,route_id\nS1,R\n"}, "a trip of another day has this name"),
                             ({"deadheads.csv": "from,to,minutes\nB,C,20\nC,Yard,1\nYard,C,1\n", "edits.csv": "extra,E1,Yard,Yard,08:00,08:20\n"},
                              '"Yard" has no stop of the feed')):
            with self.subTest(words):
                base = {"desk.toml": 'date = "20260907"\n', "calendar_dates.txt": days, "extras.csv": "name,route_id\nE1,R\n",
                        "edits.csv": "extra,E1,C,C,08:00,08:20\n"}
                two_trips(self.town, base | files)
                self.assertIn(words, self.publish("--replace")[2])

    def test_a_feed_that_does_not_read_back_is_not_written(self) -> None:
        small_town(self.town, SCRIPT)
        write_feed(self.town, {"extras.csv": EXTRAS})
        with mock.patch("desk.published_feed.format_time", return_value="10:01:00"):
            self.refused("trip E1 is not in the feed as it is in the plan")
        with mock.patch("desk.published_feed._row", return_value=""):
            self.refused("trip E1 is not in the feed as it is in the plan")
        with mock.patch("desk.published_feed.WRITTEN", {"trips.txt": "trips.txt", "stop_times.txt": "stop_times_blocks.txt"}):
            self.refused("is not in the feed as it is in the plan")

    def test_names_and_files_that_are_there(self) -> None:
        small_town(self.town)
        self.assertEqual(self.desk("publish", self.town, self.room / "out")[0], 2)
        self.out.write_text("mine")
        self.assertIn("out.zip is there already", self.publish()[2])
        self.assertEqual(self.out.read_text(), "mine")
        self.assertEqual(self.publish("--replace")[0], 0)
        self.out.unlink()
        (self.room / "out-boards.html").write_text("mine")
        self.assertIn("out-boards.html is there already", self.publish("--boards")[2])

    def test_boards_and_figures_beside_it(self) -> None:
        small_town(self.town)
        before = sorted(path.name for path in self.town.iterdir())
        status, text, _ = self.publish("--boards", "--figures")
        self.assertEqual((status, text.splitlines()[1:3]), (0, [str(self.room / "out-boards.html"), str(self.room / "out-figures.txt")]))
        self.assertIn("vehicles 10, empty minutes 216", (self.room / "out-figures.txt").read_text())
        self.assertIn("wd_3_i_0850", (self.room / "out-boards.html").read_text())
        self.assertEqual(before, sorted(path.name for path in self.town.iterdir()), "the town stays as it is")

    def test_what_is_refused_and_a_day_without_trips(self) -> None:
        small_town(self.town, "shift,wd_3_i_0850,+9\n")
        status, _, errors = self.publish()
        self.assertEqual((status, self.out.exists()), (1, True))
        self.assertIn("record 1: refused, wd_3_i_0850: outside tolerance", errors)
        self.out.unlink()
        write_feed(self.town, {"desk.toml": 'date = "20250907"\n', "edits.csv": ""})
        self.refused("nothing is written: no trip runs")
        write_feed(self.town, {"desk.toml": "Layover = 5\n"})
        self.refused("feed refused: desk.toml: bad Layover")


if __name__ == "__main__":
    unittest.main()
