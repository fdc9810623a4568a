"""Services run on dates as the program has it."""
from __future__ import annotations

import datetime

from desk.calendars import format_date, parse_date, read_calendars
from desk.errors import DeskError
from desk.program import run
from tests.feeds import FIRST_DAY, FolderTest, agency, demonstration, needs_program, write_feed

DAY = datetime.timedelta(days=1)


class CalendarsOfFeeds(FolderTest):
    """What the two files say."""

    def test_dates(self) -> None:
        for text, date in (("20260907", datetime.date(2026, 9, 7)), (" 20240229 ", datetime.date(2024, 2, 29)), ("20260229", None),
                           ("2026-09-07", None), ("2026097", None), ("00000101", None), ("٢٠٢٦٠٩٠٧", None), ("", None)):
            with self.subTest(text=text):
                self.assertEqual(date, parse_date(text))
        self.assertEqual("00010203", format_date(datetime.date(1, 2, 3)))

    def test_weekdays_and_exceptions(self) -> None:
        calendars = read_calendars(write_feed(self.room, agency()))
        holiday = FIRST_DAY + 14 * DAY
        for date, services in ((FIRST_DAY, {"weekday", "school"}), (FIRST_DAY + 5 * DAY, {"saturday"}), (holiday, {"sunday"}),
                               (holiday + 7 * DAY, {"weekday", "school"}), (FIRST_DAY - DAY, set()), (FIRST_DAY + 84 * DAY, set())):
            with self.subTest(date=date):
                self.assertEqual(services, calendars.services_on(date))
        self.assertEqual({"weekday", "school", "saturday", "sunday"}, calendars.services())
        self.assertEqual((FIRST_DAY, FIRST_DAY + 83 * DAY), calendars.range())

    def test_dates_alone(self) -> None:
        write_feed(self.room, {"calendar_dates.txt": "exception_type,date,service_id\n1,20260907,a\n1,20261001,b\n2,20261201,b\n"})
        calendars = read_calendars(self.room)
        self.assertTrue(calendars.found)
        self.assertEqual((datetime.date(2026, 9, 7), datetime.date(2026, 10, 1)), calendars.range())
        self.assertEqual((datetime.date(2026, 10, 1), datetime.date(2026, 10, 1)), calendars.range({"b"}))
        self.assertIsNone(calendars.range({"c"}))

    def test_no_calendars(self) -> None:
        calendars = read_calendars(self.room)
        self.assertEqual((False, None, set()), (calendars.found, calendars.range(), calendars.services_on(FIRST_DAY)))

    def test_records_that_are_not_in_form(self) -> None:
        week = "service_id,monday,tuesday,wednesday,thursday,friday,saturday,sunday,start_date,end_date\n"
        dates = "service_id,date,exception_type\na,20260101,1\n"
        for name, text, message in (
                ("calendar.txt", week + "a,1,1,1,1,1,1,1,20260101,2026-12-31\n", "calendar.txt record 1: bad end_date"),
                ("calendar_dates.txt", dates + "a,20260132,1\n", "calendar_dates.txt record 2: bad date"),
                ("calendar_dates.txt", dates + "a,20260102,3\n", "calendar_dates.txt record 2: bad exception_type")):
            with self.subTest(message):
                write_feed(self.room / message, {name: text})
                with self.assertRaisesRegex(DeskError, message):
                    read_calendars(self.room / message)

    @needs_program
    def test_the_program_selects_the_same_services(self) -> None:
        feed = {**demonstration(), "calendar_dates.txt": "service_id,date,exception_type\nFULLW,20070604,2\nWE,20070604,1\nFULLW,20110101,1\n"}
        feed["trips.txt"] = "service_id,trip_id\nFULLW,AB1\nWE,AAMV1\n"
        calendars = read_calendars(write_feed(self.room, feed))
        for date in ("20070604", "20070605", "20070609", "20070610", "20061231", "20101231", "20110101", "20110102"):
            with self.subTest(date=date):
                (self.room / "desk.toml").write_text(f'date = "{date}"\n')
                lines = run(["fixed", self.room]).text.decode()
                found = {service for service, trip in (("FULLW", "AB1"), ("WE", "AAMV1")) if f" {trip} " in lines}
                self.assertEqual(found, calendars.services_on(parse_date(date) or FIRST_DAY))
