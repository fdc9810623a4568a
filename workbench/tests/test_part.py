"""Towns with too many trips are parted, and `new` says first how."""
from __future__ import annotations

import csv
import tomllib
import unittest
from pathlib import Path
from unittest import mock

from desk.parts import Part, by_agency, by_routes
from desk.program import run
from desk.town import Town
from tests.feeds import Feed, FolderTest, files_of, needs_program, table, write_feed

ENDS = {"red": "ab", "blue": "bc", "green": "de", "grey": "fg", "night": "de"}
"""The routes and the stops between which each runs: red and blue share one, green and night both."""


def feed() -> Feed:
    """Two agencies with trips on five routes: four of red, three of blue, three of green, one of grey; night runs on Saturdays."""
    trips = [(route, "W", f"{route}{number}", "today") for route, count in (("red", 4), ("blue", 3), ("green", 3), ("grey", 1))
             for number in range(count)] + [("night", "S", "night0", "")]
    times = [(name, f"{hour:02}:00:00", f"{hour:02}:00:00", stop, hour) for route, _, name, _ in trips
             for hour, stop in zip((6, 7), ENDS[route])]
    return {
        "trips.txt": table("route_id,service_id,trip_id,block_id", trips),
        "stop_times.txt": table("trip_id,arrival_time,departure_time,stop_id,stop_sequence", times),
        "routes.txt": "route_id,agency_id\nred,City Bus\nblue,City Bus\ngreen,Coach\ngrey,Coach\nnight,Coach\n",
        "calendar_dates.txt": "service_id,date,exception_type\nW,20260907,1\nS,20260912,1\n",
        "desk.toml": 'date = "20260907"\nblock_prefix = "V"\n', "tolerances.csv": "trip_id,early,late\nred0,1,1\ngreen0,1,1\n",
        "depot.csv": "terminal,pull_out,pull_in\na,1,1\n",
        "pairs.csv": "before,after,rule\nred0,red1,never\ngreen0,green1,keep\nred1,green1,never\n", "edits.csv": "cancel,red0\n", "blocks.csv": "old\n",
        "trips_before_1.txt": "old\n"}


class PartsTest(FolderTest):
    """The parts of a day of eleven trips."""

    def setUp(self) -> None:
        super().setUp()
        self.town = write_feed(self.room / "town", feed())

    def column(self, path: Path, name: str) -> list[str]:
        """A column of a file."""
        with open(path, newline="", encoding="utf-8") as file:
            return [row[name] for row in csv.DictReader(file)]

    def test_by_agency(self) -> None:
        self.assertEqual(by_agency(Town(self.town)), [Part("City_Bus", frozenset({"red", "blue"}), 7),
                                                      Part("Coach", frozenset({"green", "grey", "night"}), 4)])

    def test_by_routes_that_share_no_terminal(self) -> None:
        """Red and blue share b. The others go together where they fit, and night, which does not run, with the largest."""
        for most, expected in ((7, [{"red", "blue", "night"}, {"green", "grey"}]), (3, [{"red", "blue", "night"}, {"green"}, {"grey"}]),
                               (11, [{"red", "blue", "green", "grey", "night"}])):
            with self.subTest(most), mock.patch("desk.parts.MOST_TRIPS", most):
                self.assertEqual([set(part.routes) for part in by_routes(Town(self.town))], expected)

    @needs_program
    def test_the_towns_of_two_agencies(self) -> None:
        before = files_of(self.town)
        status, text, errors = self.desk("part", self.town, "--by", "agency")
        self.assertEqual((status, errors), (0, ""))
        self.assertEqual(text, f"{self.town}-City_Bus: 7 trips of the day on 2 routes\n{self.town}-Coach: 4 trips of the day on 3 routes\n"
                               f"left in {self.town} alone: edits.csv, blocks.csv, trips_before_1.txt\n"
                               f"Next: ./desk notes {self.town}-City_Bus\n")
        self.assertEqual(before, files_of(self.town))
        trips = []
        for number, name in ((1, "City_Bus"), (2, "Coach")):
            part = self.room / f"town-{name}"
            trips += self.column(part / "trips.txt", "trip_id")
            self.assertEqual(set(self.column(part / "trips.txt", "trip_id")), set(self.column(part / "stop_times.txt", "trip_id")))
            self.assertEqual(tomllib.loads((part / "desk.toml").read_text())["block_prefix"], f"V{number}-")
            self.assertFalse((part / "trips_before_1.txt").exists())
            self.assertEqual(run(["blocks", part]).status, 0)
        self.assertEqual(sorted(trips), sorted(self.column(self.town / "trips.txt", "trip_id")))
        self.assertEqual(self.column(self.room / "town-Coach" / "tolerances.csv", "trip_id"), ["green0"])
        self.assertEqual([self.column(self.room / f"town-{name}" / "pairs.csv", "before") for name in ("City_Bus", "Coach")],
                         [["red0", "red1"], ["green0", "red1"]])

    def test_what_the_program_has_beside_a_journal_stays(self) -> None:
        """So does a prefix of blocks with a quote and a mark, and the comment behind it."""
        write_feed(self.town, {"journal.db": "", "journal.db-wal": "lines", "desk.toml": "block_prefix = 'a\"#' # ours\n"})
        self.assertIn(f"left in {self.town} alone: edits.csv, journal.db, journal.db-wal, blocks.csv, trips_before_1.txt\n",
                      self.desk("part", self.town, "--by", "agency")[1])
        part = self.room / "town-Coach"
        self.assertEqual([path.name for path in part.glob("journal*")], [])
        self.assertEqual((part / "desk.toml").read_text(), 'block_prefix = "a\\"#2-" # ours\n')

    @needs_program
    def test_too_many_terminals_for_one_town(self) -> None:
        """Seven terminals are too many for deadheads, and those of a part are not: `--more` drafts what the town could not have."""
        stops = table("stop_id,stop_name,stop_lat,stop_lon", [(stop, stop.upper(), 52 + number / 100, 1) for number, stop in enumerate("abcdefg")])
        agency = write_feed(self.room / "agency", {name: text for name, text in feed().items() if name.endswith(".txt")} | {"stops.txt": stops})
        town, part = self.room / "large", self.room / "large-Coach"
        with mock.patch("desk.new.steps.MOST_PLACES", 6):
            self.desk("new", agency, town, "--date", "20260907", "--depot", "52,1")
            self.assertFalse((town / "deadheads.csv").exists())
            self.assertIn(f"{part} has no deadheads.csv: `./desk new {part}/agency {part} --more --depot LAT,LON` drafts it",
                          self.desk("part", town, "--by", "agency")[1])
            self.assertEqual(self.desk("new", part / "agency", part, "--more", "--depot", "52,1")[::2], (0, ""))
        self.assertEqual(set(self.column(part / "depot.csv", "terminal")), set("DEFG"))
        self.assertEqual(len(self.column(part / "deadheads.csv", "from")), 5 * 4)
        self.assertEqual((run(["blocks", part]).status, self.desk("notes", part)[1]), (0, "notes 0\n"))

    def test_nothing_to_part_and_towns_that_are_there(self) -> None:
        for by, words in (("routes", "all routes of the day are joined by common terminals, so there is nothing to part --by routes"),
                          ("agency", "town-Coach is there already")):
            (self.room / "town-Coach").mkdir(exist_ok=True)
            with self.subTest(by):
                if by == "routes":
                    write_feed(self.town, {"terminals.csv": "stop_id,terminal\na,All\nd,All\nf,All\n"})
                status, text, errors = self.desk("part", self.town, "--by", by)
                self.assertEqual((status, text), (1, ""))
                self.assertIn(words, errors)
        self.assertFalse((self.room / "town-City_Bus").exists())

    def test_new_says_first_how_to_part(self) -> None:
        with mock.patch("desk.new.steps.MOST_TRIPS", 10), mock.patch("desk.parts.MOST_TRIPS", 10):
            status, text, _ = self.desk("new", self.town, self.room / "other", "--date", "20260907")
        self.assertEqual(status, 1)
        name = self.room / "other"
        self.assertEqual(text.splitlines()[2:6], [
            "trips.txt: 11 trips run on that day, and the program plans at most 10. Part the town:",
            f"  by agency: `./desk part {name} --by agency` makes 2 towns, of 7, 4 trips",
            f"  by routes: `./desk part {name} --by routes` makes 2 towns, of 10, 1 trips",
            "  by garage: a town for each, whose trips.txt has the routes of that garage alone"])


if __name__ == "__main__":
    unittest.main()
