"""One feed for a period: on every date what the agency's feed has, in the blocks that are planned for it, and nothing else is written."""
from __future__ import annotations

import csv
import datetime
import unittest
import zipfile
from itertools import pairwise
from pathlib import Path
from unittest import mock

from desk.period_trips import PeriodTrips
from desk.program import ROOT
from tests.feeds import Feed, demonstration, needs_program, table, write_feed, zip_feed
from tests.gtfs import Gtfs, Run, moved
from tests.made_periods import with_dates_alone, with_night_and_school
from tests.publishing import PublishingTest

DAY = datetime.timedelta(days=1)


@needs_program
class PeriodTest(PublishingTest):
    """From zip to one published feed."""

    def setUp(self) -> None:
        super().setUp()
        self.agency = self.room / "agency.zip"

    def make(self, feed: Feed) -> None:
        """Makes the town of a feed, and its plans."""
        zip_feed(self.agency, feed)
        self.desk("new", self.agency, self.town, "--days")
        self.desk("plan", self.town)

    def planned(self, folder: str) -> dict[str, list[str]]:
        """The blocks that the program has written of a day type, each with its trips."""
        found: dict[str, list[str]] = {}
        with open(self.town / folder / "blocks.csv", newline="", encoding="utf-8") as file:
            for row in csv.DictReader(file):
                found.setdefault(row["block_id"], []).append(row["trip_id"])
        return found

    def check_dates(self, source: Path | None = None) -> int:
        """On every date of the period, and a month around it, the two feeds have the same runs, and the blocks are the planned ones.
        Gives how many dates have trips."""
        agency, town, made = Gtfs(source or self.agency), Gtfs(self.town), Gtfs(self.out)
        days = self.answer("days", self.town)["days"]
        folder_of = {date: day["folder"] for day in days for date in day["dates"]}
        planned = {day["folder"]: self.planned(day["folder"]) for day in days}
        first, last = (datetime.datetime.strptime(end(folder_of), "%Y%m%d").date() for end in (min, max))
        for date in (first + number * DAY for number in range(-31, (last - first).days + 32)):
            self.assertEqual(made.content(date), agency.content(date), date)
            folder = folder_of.get(f"{date:%Y%m%d}")
            wanted = {block: [run for trip in trips for run in town.runs[trip]] for block, trips in planned[folder].items()} if folder else {}
            self.assertEqual(made.blocks(date), wanted, date)
        return len(folder_of)

    def rows(self, name: str) -> list[dict[str, str]]:
        """The records of a file of the zip."""
        return Gtfs(self.out).rows(name)

    def test_dates_that_stand_alone(self) -> None:
        self.make(with_dates_alone())
        status, text, errors = self.publish()
        self.assertEqual((status, errors), (0, ""), text)
        self.assertIn("5 day types of 88 dates; read again, `audit` says least of each, and on every date the agency's trips run\n", text)
        self.assertEqual(self.check_dates(), 87)

    def test_a_night_over_two_days_and_a_school_line(self) -> None:
        """Trips of Friday and Saturday nights, and of weeks with school and without, are in other blocks. They are copied as often as
        they are in another block, and no more often."""
        self.make(with_night_and_school())
        status, text, errors = self.publish()
        self.assertEqual((status, errors), (0, ""), text)
        self.assertEqual(self.check_dates(), 75)
        blocks: dict[str, set[str]] = {}
        for day in (self.town / "days").iterdir():
            for block, trips in self.planned(f"days/{day.name}").items():
                for trip in trips:
                    blocks.setdefault(trip, set()).add(block)
        copies = sum(len(of_trip) - 1 for of_trip in blocks.values())
        self.assertGreater(copies, 0)
        self.assertGreater(sum(len(of_trip) > 1 for trip, of_trip in blocks.items() if trip.startswith("night")), 0)
        self.assertIn(f"copies: {copies}, of trips", text)
        self.assertEqual(len(self.rows("trips.txt")), len(Gtfs(self.agency).trips) + copies)
        self.assertEqual(len([line for line in text.splitlines() if line.startswith("  ")]), copies)

    def test_the_demonstration_feed(self) -> None:
        """Repetitions of frequencies stand one by one, over four years."""
        self.make(demonstration())
        status, text, errors = self.publish()
        self.assertEqual((status, errors), (0, ""), text)
        self.assertEqual(self.check_dates(), 1460)
        with zipfile.ZipFile(self.out) as archive:
            self.assertNotIn("frequencies.txt", archive.namelist())

    def test_the_example_of_a_small_town(self) -> None:
        example = ROOT / "examples" / "small_town"
        self.desk("new", example, self.town, "--days")
        self.desk("plan", self.town)
        self.assertEqual(self.publish()[0], 0)
        self.assertEqual(self.check_dates(example), 303)

    def test_scripts_of_day_types(self) -> None:
        """A trip is moved, another does not run, and an extra one runs, on the dates of one day type alone."""
        self.make(with_dates_alone())
        write_feed(self.town, {"tolerances.csv": "trip_id,early,late\nweek_1_0_360,0,5\n", "extras.csv": "name,route_id\nRelief,1\n"})
        script = "shift,week_1_0_360,+3\ncancel,week_2_0_367\nextra,Relief,Abbey,Bridge,22:00,22:30\n"
        for name in ("fri", "24-dec"):
            write_feed(self.town / "days" / name, {"edits.csv": script if name == "fri" else script.splitlines()[2] + "\n"})
        status, text, errors = self.publish()
        self.assertEqual((status, errors), (0, ""), text)
        self.assertIn("days/fri: without its cancelled trips: week_2_0_367\n", text)
        agency, made = Gtfs(self.agency), Gtfs(self.out)
        thursday, friday, eve = (datetime.date(2026, 12, day) for day in (17, 18, 24))
        self.assertEqual(made.content(thursday), agency.content(thursday))
        route, headsign, rows = agency.runs["week_1_0_360"][0]
        later: Run = (route, headsign, tuple(moved(row, 180) for row in rows))
        extra, = [run for run in made.content(eve) if run[2][0][3] == 22 * 3600 and len(run[2]) == 2]
        gone = agency.content(friday) - made.content(friday)
        self.assertEqual(sorted(gone), sorted([agency.runs["week_1_0_360"][0], agency.runs["week_2_0_367"][0]]))
        self.assertEqual(sorted(made.content(friday) - agency.content(friday)), sorted([later, extra]))
        self.assertEqual(made.content(eve) - agency.content(eve), {extra: 1})
        self.assertEqual([row["service_id"] for row in self.rows("trips.txt") if row["trip_id"] == "week_2_0_367"], ["week@mon-thu"])

    def test_rules_of_copied_trips(self) -> None:
        """A rule names a trip that is copied, and holds for each of its copies."""
        self.make(with_night_and_school())
        planned = {day.name: self.planned(f"days/{day.name}") for day in (self.town / "days").iterdir()}
        pairs = {pair for blocks in planned.values() for trips in blocks.values() for pair in pairwise(trips) if "night" in pair[0] + pair[1]}
        write_feed(self.town, {"pairs.csv": table("before,after,rule", [(*pair, "never") for pair in sorted(pairs)])})
        self.desk("plan", self.town)
        status, text, errors = self.publish()
        self.assertEqual((status, errors), (0, ""), text)
        self.assertEqual(self.check_dates(), 75)

    def test_files_that_name_copied_trips(self) -> None:
        """A record of two trips stands for each pair of copies with a common date."""
        feed = with_night_and_school()
        feed["transfers.txt"] = "from_stop_id,to_stop_id,transfer_type,from_trip_id,to_trip_id\nA,A,2,,\nA,A,4,night_N_0_1450,week_1_0_380\n" \
                                "A,A,4,night_N_0_1450,nothing\n"
        feed["translations.txt"] = "table_name,field_name,language,translation,record_id\ntrips,trip_headsign,fr,Vers,night_N_0_1450\n" \
                                   "stops,stop_name,fr,Abbaye,A\n"
        self.make(feed)
        status, text, errors = self.publish()
        self.assertEqual((status, errors), (0, ""), text)
        made = Gtfs(self.out)
        nights = [name for name in made.trips if name.startswith("night_N_0_1450")]
        self.assertEqual(len(nights), 2)
        pairs = {(row["from_trip_id"], row["to_trip_id"]) for row in self.rows("transfers.txt")} - {("", "")}
        friday = [date for date in (datetime.date(2026, 9, 7) + number * DAY for number in range(75)) if date.weekday() == 4]
        wanted = {(one, two) for date in friday for one in nights if one in made.on(date)
                  for two in made.on(date) if two.split("@")[0] == "week_1_0_380"}
        self.assertEqual(pairs, wanted)
        self.assertIn("transfers.txt: 1 record of trips that are not in it left out\n", text)
        self.assertEqual(sorted(row["record_id"] for row in self.rows("translations.txt")), sorted([*nights, "A"]))

    def test_a_feed_that_does_not_read_back_is_not_written(self) -> None:
        self.make(with_night_and_school())
        with mock.patch("desk.period_feed.add_services", lambda path, services: None):
            self.refused("nothing is written: on 2026-")
        with mock.patch("desk.period_feed._versions_by_name", return_value=({}, {})):
            self.refused("nothing is written: on 2026-")
        with mock.patch("desk.published_period.period_trips", return_value=PeriodTrips()):
            self.refused("nothing is written: on 2026-")
        with mock.patch("desk.period_check._found", return_value=None), mock.patch("desk.period_check._wanted", return_value=None), \
                mock.patch("desk.published_period.period_trips", return_value=PeriodTrips()):
            self.refused("nothing is written: `audit` of the feed does not say `least`: ")

    def test_what_keeps_it_from_being_written(self) -> None:
        self.make(with_dates_alone())
        write_feed(self.town / "days" / "sun", {"deadheads.csv": "from,to,minutes\nAbbey,Abbey,3\n"})
        self.refused("nothing is written: days/sun: ")
        (self.town / "days" / "sun" / "deadheads.csv").unlink()
        write_feed(self.town / "days" / "sun", {"desk.toml": 'date = "20261225"\n'})
        self.refused("nothing is written: days/sun: no trip runs on its date, 2026-12-25")

    def test_boards_of_each_day_type(self) -> None:
        self.make(with_dates_alone())
        self.assertEqual(self.publish("--boards", "--figures")[0], 0)
        self.assertEqual(sorted(path.name for path in self.room.glob("out-*.txt")),
                         [f"out-{name}-figures.txt" for name in ("24-dec", "fri", "mon-thu", "sat", "sun")])
        self.assertIn("vehicles 3,", (self.room / "out-fri-figures.txt").read_text())
        status, _, errors = self.publish()
        self.assertEqual(status, 1)
        self.assertIn("out.zip is there already", errors)


if __name__ == "__main__":
    unittest.main()
