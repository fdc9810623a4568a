"""The day that is drafted, and how many trips run on which."""
from __future__ import annotations

import datetime
import unittest

from desk.calendars import Calendars, Span, read_calendars
from desk.dates import Days, check_date, choose, fortnight, trips_by_service
from desk.errors import DeskError
from tests.feeds import FIRST_DAY, FolderTest, agency, write_feed

DAY = datetime.timedelta(days=1)
ALL = frozenset(range(7))


def made(**spans: tuple[frozenset[int], int, int]) -> Calendars:
    """Calendars of services by their weekdays, and the first and the last day after FIRST_DAY."""
    made_spans = {name: Span(weekdays, FIRST_DAY + first * DAY, FIRST_DAY + last * DAY)
                  for name, (weekdays, first, last) in spans.items()}
    return Calendars(made_spans, found=True)


class Chosen(unittest.TestCase):
    """Which day is chosen."""

    def chosen(self, calendars: Calendars, trips: dict[str, int], today: int) -> tuple[int, str]:
        """The day that is chosen, after FIRST_DAY, and why."""
        date, why = choose(Days(calendars, trips), FIRST_DAY + today * DAY)
        return (date - FIRST_DAY).days, why

    def test_the_busiest_weekday_from_today_on(self) -> None:
        calendars = made(base=(ALL, 0, 100), fridays=(frozenset({4}), 0, 100), saturdays=(frozenset({5}), 0, 100), early=(ALL, 0, 10))
        trips = {"base": 10, "fridays": 1, "saturdays": 99, "early": 50}
        for today, day in ((-500, 4), (0, 4), (5, 7), (7, 7), (11, 11), (12, 18), (96, 98)):
            with self.subTest(today=today):
                self.assertEqual((day, "the busiest weekday from today on"), self.chosen(calendars, trips, today))

    def test_the_last_weeks_of_a_range_that_is_over(self) -> None:
        calendars = made(early=(ALL, 0, 50), late=(frozenset({0, 5}), 0, 100))
        self.assertEqual((77, "the busiest weekday of the last weeks before the calendars end on 2026-12-09"),
                         self.chosen(calendars, {"early": 50, "late": 7}, 101))

    def test_no_weekday(self) -> None:
        self.assertEqual((5, "the busiest day from today on"), self.chosen(made(weekend=(frozenset({5, 6}), 0, 30)), {"weekend": 3}, 0))

    def test_services_without_trips_do_not_count(self) -> None:
        calendars = made(used=(ALL, 0, 9), unused=(ALL, 0, 100))
        self.assertIn("end on 2026-09-09", self.chosen(calendars, {"used": 1}, 50)[1])
        with self.assertRaisesRegex(DeskError, "no service of trips.txt runs on any day"):
            self.chosen(calendars, {"another": 1}, 0)

    def test_a_range_in_which_nothing_is_left(self) -> None:
        calendars = made(a=(ALL, 0, 9))
        calendars.removed = {FIRST_DAY + day * DAY: {"a"} for day in range(10)}
        with self.assertRaisesRegex(DeskError, "no trip runs on any day from 2026-09-02 to 2026-09-09: name the day with --date"):
            self.chosen(calendars, {"a": 1}, 2)

    def test_a_range_without_an_end_is_looked_at_for_some_years(self) -> None:
        self.assertEqual((4, "the busiest weekday from today on"), self.chosen(made(a=(frozenset({4}), -9000, 900_000)), {"a": 1}, 0))

    def test_a_day_that_is_asked(self) -> None:
        days = Days(made(a=(frozenset({0}), 0, 30)), {"a": 2})
        check_date(days, FIRST_DAY)
        with self.assertRaisesRegex(DeskError, "no trip runs on 2026-09-01; the calendars go from 2026-08-31 to 2026-09-30"):
            check_date(days, FIRST_DAY + DAY)


class Told(FolderTest):
    """The lines of the days."""

    def test_two_weeks_in_which_a_holiday_stands_out(self) -> None:
        write_feed(self.room, agency())
        days = Days(read_calendars(self.room), trips_by_service(self.room / "trips.txt"))
        lines = fortnight(days, FIRST_DAY + 15 * DAY)
        self.assertEqual(14, len(lines))
        self.assertEqual("Tue 2026-09-08  602", lines[0])
        self.assertEqual("Sat 2026-09-12  270", lines[4])
        self.assertEqual("Mon 2026-09-14  160  Mondays usually have 602", lines[6])
        self.assertEqual("Tue 2026-09-15  602  the day of this town", lines[7])
        self.assertEqual("Mon 2026-09-21  602", lines[13])
        self.assertEqual("Sun 2026-08-30    0  outside the calendars", fortnight(days, FIRST_DAY)[6])

    def test_trips_by_service(self) -> None:
        write_feed(self.room, {"trips.txt": "trip_id,service_id\n1,a\n2,b\n3,a\n"})
        self.assertEqual({"a": 2, "b": 1}, trips_by_service(self.room / "trips.txt"))
