"""Day types of a period: which dates they have, what they are called, and the folders that are made for them."""
from __future__ import annotations

import datetime
import unittest
from unittest import mock

from desk.calendars import read_calendars
from desk.day_types import find_period, trips_of_services
from desk.period import spans_text
from desk.town import Town
from tests.feeds import Feed, FolderTest, demonstration, needs_program, write_feed, zip_feed
from tests.made_periods import with_dates_alone, with_night_and_school

NOW = datetime.date(2026, 10, 1)


class DayTypesTest(FolderTest):
    """The day types of calendars."""

    def names(self, feed: Feed) -> dict[str, tuple[str, int, int]]:
        """The label, the dates and the trips of each day type by its folder, the busiest first."""
        write_feed(self.room, feed)
        found = find_period(read_calendars(self.room), trips_of_services(self.room / "trips.txt"))
        return {kind.folder: (kind.label, len(kind.dates), kind.trips) for kind in found.types}

    def test_dates_that_stand_alone(self) -> None:
        self.assertEqual(self.names(with_dates_alone()), {
            "fri": ("Friday", 11, 68), "mon-thu": ("Monday to Thursday", 50, 60), "sat": ("Saturday", 12, 33), "24-dec": ("24 December", 1, 23),
            "sun": ("Sunday", 13, 9)})

    def test_school_days_and_holidays(self) -> None:
        self.assertEqual(self.names(with_night_and_school()), {
            "school-fri": ("school days, Friday", 9, 64), "school-mon-thu": ("school days, Monday to Thursday", 36, 58),
            "23-oct": ("23 October and 30 October", 2, 58), "holidays": ("holidays", 8, 52), "sat": ("Saturday", 10, 28),
            "sun": ("Sunday", 10, 12)})

    def test_services_of_the_same_trips_and_of_none(self) -> None:
        """Dates with other services and the same trips are of one day type. Services without trips make none."""
        feed = {"calendar_dates.txt": "service_id,date,exception_type\na,20260907,1\nb,20260908,1\nempty,20260908,1\nempty,20260909,1\n",
                "trips.txt": "service_id,trip_id\na,T1\nb,T1\n"}
        write_feed(self.room, feed)
        found = find_period(read_calendars(self.room), trips_of_services(self.room / "trips.txt"))
        self.assertEqual([(kind.trips, len(kind.dates), sorted(kind.services)) for kind in found.types], [(1, 2, ["a", "b"])])
        self.assertEqual(found.without, ())

    def test_a_period_of_several_years(self) -> None:
        self.assertEqual(self.names(demonstration()), {"sat-sun": ("Saturday and Sunday", 416, 11), "mon-fri": ("Monday to Friday", 1044, 7)})
        feed = demonstration() | {"calendar_dates.txt": "service_id,date,exception_type\nWE,20080501,1\n"}
        self.assertIn("mon-fri", self.names(feed))
        self.assertEqual(self.names(feed)["sat-sun"], ("Saturday and Sunday", 417, 11), "a weekday with the trips of a Sunday is one of them")

    def test_dates_in_words(self) -> None:
        day = datetime.date
        every = [day(2026, 9, number) for number in range(1, 31)]
        mondays = [date for date in every if date.weekday() == 0]
        self.assertEqual(spans_text(mondays, every), "Mon 7 Sep 2026 to Mon 28 Sep 2026")
        self.assertEqual(spans_text([mondays[0], *mondays[2:]], every), "Mon 7 Sep 2026; Mon 21 Sep 2026 to Mon 28 Sep 2026")


@mock.patch("desk.new.days.today", return_value=NOW)
class NewDaysTest(FolderTest):
    """Towns with days."""

    def make(self, *words: str, feed: Feed | None = None) -> tuple[int, str, str]:
        """Makes the town of the agency with dates alone."""
        return self.desk("new", zip_feed(self.room / "agency.zip", feed or with_dates_alone()), self.room / "town", *words)

    def test_a_folder_for_each_day_type(self, _: mock.Mock) -> None:
        status, text, errors = self.make("--days", "--depot", "52.13,-0.44")
        self.assertEqual((status, errors), (0, ""), text)
        self.assertIn("5 day types of 88 dates, 2026-10-05 to 2026-12-31:\n  days/fri: Friday, 11 dates, 68 trips\n", text)
        town = self.room / "town"
        self.assertEqual(sorted(path.name for path in (town / "days").iterdir()), ["24-dec", "fri", "mon-thu", "sat", "sun"])
        self.assertEqual(Town(town / "days" / "mon-thu").settings["date"], "20261005")
        self.assertNotIn("date", Town(town).settings)
        self.assertEqual([len(Town(town / "days" / name).day()) for name in ("fri", "mon-thu", "sat", "24-dec", "sun")], [68, 60, 33, 23, 9])

    @needs_program
    def test_the_commands_of_a_day(self, _: mock.Mock) -> None:
        """They run on the folder of a day type as on a town, and what is written stands there."""
        self.make("--days")
        day = self.room / "town" / "days" / "sun"
        self.assertEqual(self.desk("blocks", day)[1], "fixed 1, vehicles 1, minutes 0\n")
        self.assertEqual(self.desk("check", day)[1], "yes, vehicles 1, minutes 0\n")
        self.assertEqual(self.desk("joined", day)[0], 0)
        self.assertEqual(self.desk("audit", day)[1].splitlines()[-1], "least")
        self.assertEqual(self.desk("boards", day)[0], 0)
        self.assertEqual(self.desk("page", day)[0], 0)
        self.assertEqual(self.desk("figures", day)[1].splitlines()[0], "vehicles 1, empty minutes 0, as the program says")
        self.assertEqual(self.desk("save", day, "first")[1], "saved first: yes, vehicles 1, minutes 0\n")
        write_feed(day, {"edits.csv": "cancel,sun_1_0_540\n"})
        self.assertEqual(self.desk("keep", day)[1], "journal 0 records\nrecord 1: ok\nkept 1 records\n")
        (day / "edits.csv").unlink()
        self.assertEqual(self.desk("kept", day)[0], 0)
        self.assertEqual((day / "edits.csv").read_text(), "cancel,sun_1_0_540\n")
        self.assertEqual(sorted(path.name for path in (self.room / "town" / "days" / "sat").iterdir()), ["desk.toml"])
        self.assertIn("has days, and all of their trips were taken as those of one day. Name one of them, as `./desk blocks ",
                      self.desk("blocks", self.room / "town")[2])

    @needs_program
    def test_shared_files_and_those_of_a_day(self, _: mock.Mock) -> None:
        """A change in the town holds for all day types. A file or a key of a day type goes before it, and `notes` says so."""
        self.make("--days")
        town = self.room / "town"
        fri, sat = town / "days" / "fri", town / "days" / "sat"
        self.assertEqual(self.desk("notes", town)[:2], (0, "notes 0\n"))
        before = [self.desk("blocks", day)[1] for day in (fri, town / "days" / "mon-thu")]
        settings = (town / "desk.toml").read_text()
        (town / "desk.toml").write_text(settings.replace("layover = 5", "layover = 12"))
        after = [self.desk("blocks", day)[1] for day in (fri, town / "days" / "mon-thu")]
        self.assertTrue(all(one != other for one, other in zip(before, after)), (before, after))
        write_feed(fri, {"desk.toml": (fri / "desk.toml").read_text() + "layover = 5\n"})
        write_feed(sat, {"deadheads.csv": "from,to,minutes\nAbbey,Bridge,1\n"})
        self.assertEqual(self.desk("blocks", fri)[1], before[0])
        status, text, _ = self.desk("notes", town)
        self.assertEqual(status, 1)
        self.assertIn("days/fri/desk.toml: layover is 5, and in desk.toml of the town it is 12.", text)
        self.assertIn("days/sat/deadheads.csv: it goes before deadheads.csv of the town: 1 of its records are not there, and ", text)

    def test_more_keeps_the_folders(self, _: mock.Mock) -> None:
        """A new feed has another day type: it gets a folder, and the others stay with what is in them."""
        self.make("--days")
        sat = self.room / "town" / "days" / "sat"
        write_feed(sat, {"edits.csv": "cancel,T\n", "desk.toml": 'date = "20261010"\nlayover = 3\n'})
        sat.rename(sat.with_name("saturday"))
        feed = with_dates_alone()
        feed["calendar_dates.txt"] += "sat,20261101,1\n"
        status, text, errors = self.make("--more", feed=feed)
        self.assertEqual((status, errors), (0, ""), text)
        self.assertIn("days/: 1 folder with a desk.toml; 5 folders kept", text)
        names = sorted(path.name for path in sat.parent.iterdir())
        self.assertEqual(names, ["1-nov", "24-dec", "fri", "mon-thu", "saturday", "sun"])
        self.assertEqual((sat.with_name("saturday") / "desk.toml").read_text(), 'date = "20261010"\nlayover = 3\n')
        status, text, _ = self.make("--replace", feed=feed)
        self.assertEqual((sat.with_name("saturday") / "edits.csv").read_text(), "cancel,T\n")
        self.assertEqual(Town(sat.with_name("saturday")).layover("Abbey"), 5, "the draft is made anew")

    def test_days_are_printed(self, _: mock.Mock) -> None:
        self.make("--days")
        status, text, errors = self.desk("days", self.room / "town")
        self.assertEqual((status, errors), (0, ""))
        self.assertIn("5 day types of 88 dates, 2026-10-05 to 2026-12-31\n", text)
        self.assertIn("Monday to Thursday: 50 dates, 60 trips, in days/mon-thu\n  Mon 5 Oct 2026 to Thu 22 Oct 2026; Tue 27 Oct 2026", text)
        self.assertIn("Sunday: 13 dates, 9 trips, in days/sun\n  Sun 11 Oct 2026 to Sun 27 Dec 2026; Mon 26 Oct 2026\n", text)
        self.assertIn("dates that stand alone: 24 December\n", text)
        self.assertIn("no trips on 1 date: Fri 25 Dec 2026\n", text)
        told = self.answer("days", self.room / "town")
        self.assertEqual(sum(len(kind["dates"]) for kind in told["days"]) + len(told["without"]), 88)

    def test_folders_that_are_no_day_types(self, _: mock.Mock) -> None:
        self.make("--days")
        days = self.room / "town" / "days"
        write_feed(days / "fri", {"desk.toml": 'date = "20261225"\n'})
        write_feed(days / "sat", {"desk.toml": 'date = "20261005"\n'})
        status, text, _ = self.desk("days", self.room / "town")
        self.assertEqual(status, 1)
        self.assertIn("  days/sat: it is of the same day type as days/mon-thu: take one of them away\n"
                      "  days/fri: no trip runs on its date, 2026-12-25\n"
                      "  Friday: no folder of days/ plans its 11 dates\n"
                      "  Saturday: no folder of days/ plans its 12 dates\n", text)

    def test_a_town_of_one_day(self, _: mock.Mock) -> None:
        """Its day types are told, and how folders are made for them. A date and days together are of no form."""
        self.make("--date", "20261005")
        status, text, _ = self.desk("days", self.room / "town")
        self.assertEqual(status, 0)
        self.assertIn("Friday: 11 dates, 68 trips\n", text)
        self.assertIn("--more --days` makes a folder for each day type.", text)
        self.assertEqual(self.make("--more", "--days")[0], 0)
        status, _, errors = self.make("--more", "--date", "20261005")
        self.assertEqual(status, 2)
        self.assertIn("has a folder for each day type", errors)
        status, _, errors = self.desk("part", self.room / "town" / "days" / "fri", "--by", "agency")
        self.assertEqual(status, 1)
        self.assertIn("is a day type of", errors)

    def test_feeds_without_dates(self, _: mock.Mock) -> None:
        feed = with_dates_alone()
        del feed["calendar.txt"], feed["calendar_dates.txt"]
        status, _, errors = self.make("--days", feed=feed)
        self.assertEqual(status, 1)
        self.assertIn("has no calendar.txt and no calendar_dates.txt, so it has no dates", errors)


if __name__ == "__main__":
    unittest.main()
