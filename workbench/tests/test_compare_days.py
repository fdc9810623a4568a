"""Two days, two periods and two feeds side by side: trips of one name and time, else of one line, direction and minute."""
from __future__ import annotations

import shutil
import unittest
from pathlib import Path

from tests.feeds import FolderTest, needs_program, table, write_feed
from tests.made_periods import with_dates_alone, with_night_and_school

TRIPS = "route_id,service_id,trip_id,direction_id"
TIMES = "trip_id,arrival_time,departure_time,stop_id,stop_sequence"


def day(folder: Path, date: str, trips: list[tuple[str, int, str, str]], more: str = "") -> Path:
    """A feed of trips of one line on one date: each with its name, the minute in which it leaves, its ends, and its direction."""
    rows = [(name, f"{at // 60:02}:{at % 60:02}:00", f"{at // 60:02}:{at % 60:02}:00", stop, place)
            for name, minute, ends, _ in trips for place, (stop, at) in enumerate(zip(ends, (minute, minute + 20)))]
    return write_feed(folder, {
        "desk.toml": f'date = "{date}"\n{more}', "calendar_dates.txt": f"service_id,date,exception_type\nW,{date},1\n",
        "routes.txt": "route_id,route_short_name\nR,9\n", "trips.txt": table(TRIPS, [("R", "W", name, way) for name, _, _, way in trips]),
        "stop_times.txt": table(TIMES, rows)})


@needs_program
class DaysTest(FolderTest):
    """Plans of two days."""

    def found(self, first: Path, second: Path) -> dict[str, object]:
        """What differs, of two folders that are planned."""
        return self.answer("compare", first, second)

    def test_trips_of_one_name_and_time_and_of_one_line_and_minute(self) -> None:
        """M1 has its name and time. M2 is called S2. M3 leaves at another minute, so it is none of the second day. S4 is of the other
        direction, though it leaves as M4 does."""
        first = day(self.room / "first", "20260907", [("M1", 360, "AB", "0"), ("M2", 400, "BA", "1"), ("M3", 440, "AB", "0"), ("M4", 600, "AB", "0")])
        second = day(self.room / "second", "20260912", [("M1", 360, "AB", "0"), ("S2", 400, "BA", "1"), ("M3", 445, "AB", "0"), ("S4", 600, "AB", "1")])
        for folder in (first, second):
            self.desk("blocks", folder)
        found = self.found(first, second)
        trips = found["trips"]
        self.assertEqual((trips["both"], trips["moved"]), (2, []))
        self.assertEqual([trip["trip"] for trip in trips["cancelled"]], ["M3", "M4"])
        self.assertEqual([(trip["trip"], trip["line"], trip["departs"], trip["from"]) for trip in trips["new"]],
                         [("M3 at 07:25", "9", "07:25", "A"), ("S4", "9", "10:00", "A")])
        self.assertEqual(found["days"], ["Monday 2026-09-07", "Saturday 2026-09-12"])
        text = self.desk("compare", first, second)[1]
        self.assertIn(f"was {first}, Monday 2026-09-07: yes, vehicles 2, minutes 0\n", text)
        self.assertIn("trips: 2 in both, 0 of them in other blocks, 0 with other neighbours, 0 in blocks of other names, 0 at other times, "
                      "2 on the first day alone, 2 on the second alone\n", text)
        self.assertIn("trips of one of the days alone\n Monday 2026-09-07: line 9 07:20 from A to B (M3)\n", text)
        self.assertIn(" Saturday 2026-09-12: line 9 07:25 from A to B (M3 at 07:25)\n", text)

    def test_another_layover_is_no_other_time(self) -> None:
        """Without directions, those of the ends count."""
        trips = [("M1", 360, "AB", ""), ("M2", 400, "BA", "")]
        first = day(self.room / "first", "20260907", trips)
        second = day(self.room / "second", "20260912", [("S1", 360, "AB", ""), ("S2", 400, "AB", "")], "layover = 4\n")
        for folder in (first, second):
            self.desk("blocks", folder)
        found = self.found(first, second)
        self.assertEqual((found["trips"]["both"], found["trips"]["moved"], len(found["trips"]["new"])), (1, [], 1))

    def test_two_feeds_of_one_day(self) -> None:
        """The newer feed calls its trips by other names. One that it has not renamed may depart at another minute."""
        first = day(self.room / "first", "20260907", [("M1", 360, "AB", "0"), ("M2", 400, "BA", "1"), ("M3", 440, "AB", "0")])
        second = day(self.room / "second", "20260907", [("N1", 360, "AB", "0"), ("N2", 400, "BA", "1"), ("M3", 442, "AB", "0")])
        for folder in (first, second):
            self.desk("blocks", folder)
        found = self.found(first, second)
        self.assertEqual((found["trips"]["both"], found["trips"]["cancelled"], found["trips"]["new"]), (3, [], []))
        self.assertEqual([(trip["trip"], trip["minutes"]) for trip in found["trips"]["moved"]], [("M3", 2)])

    def test_school_days_and_holidays(self) -> None:
        """The trips of school run on one of the days alone, and no other has to change its block."""
        town = self.room / "town"
        self.make_period(town, with_night_and_school())
        self.desk("plan", town)
        found = self.found(town / "days" / "school-mon-thu", town / "days" / "holidays")
        self.assertEqual([trip["trip"][:6] for trip in found["trips"]["cancelled"]], ["school"] * 6)
        for side, name in (("first", "school-mon-thu"), ("second", "holidays")):
            figures = self.answer("figures", town / "days" / name)
            counts = "neighbours", "stated_neighbours", "kept_neighbours", "line_changes", "waiting"
            self.assertEqual([found[side][name] for name in counts], [figures[name] for name in counts])
        self.assertEqual((found["trips"]["new"], found["trips"]["both"]), ([], 52))
        self.assertEqual(found["trips"]["in_other_blocks"], [])
        write_feed(town, {"edits.csv": "cancel,sun_1_0_540\n", "blocks.csv": "of no day type\n"})
        self.desk("save", town / "days" / "sun", "first")
        self.assertEqual(len(self.found(Path("first"), town / "days" / "sun")["same"]), 1)
        status, _, errors = self.desk("compare", town, town / "days" / "sun")
        self.assertEqual(status, 1)
        self.assertIn("has days: name the folder of one of them, or two towns with days", errors)

    def test_two_periods(self) -> None:
        """A row for each day type, and those that one period alone has."""
        first, second = self.room / "first", self.room / "second"
        self.make_period(first, with_dates_alone())
        self.desk("plan", first)
        shutil.copytree(first, second)
        (second / "desk.toml").write_text((second / "desk.toml").read_text().replace("layover = 5", "layover = 12"))
        (second / "days" / "sat").rename(second / "days" / "saturday")
        feed = with_dates_alone()
        write_feed(second, {"calendar.txt": feed["calendar.txt"].replace("sun,0,0,0,0,0,0,1", "sun,0,0,0,0,0,0,0")})
        shutil.rmtree(second / "days" / "sun")
        self.desk("plan", second)
        status, text, errors = self.desk("compare", first, second)
        self.assertEqual((status, errors), (0, ""), text)
        lines = [line.split() for line in text.splitlines()]
        self.assertIn(["Friday", "11", "11", "68", "68", "68", "0", "3", "6", "yes"], [line[:6] + ["0"] + line[7:] for line in lines])
        self.assertIn(["Saturday", "12", "12", "33", "33"], [line[:5] for line in lines])
        self.assertIn("Sunday: no such day type any more\n", text)
        self.assertIn(f"`./desk compare {first}/days/fri {second}/days/fri` tells of Friday\n", text)
        found = self.answer("compare", first, second)
        self.assertEqual(len(found["pairs"]), 4)
        friday = next(pair for pair in found["pairs"] if pair["name"] == "Friday")
        kept = [f"{friday[side]['kept_neighbours']} of {friday[side]['stated_neighbours']}" for side in ("first", "second")]
        told = [*kept, *(str(friday[side]["line_changes"]) for side in ("first", "second")),
                *(f"{friday[side]['waiting'] // 60}:{friday[side]['waiting'] % 60:02}" for side in ("first", "second"))]
        self.assertIn(["Friday", *" ".join(told).split()], lines)


if __name__ == "__main__":
    unittest.main()
