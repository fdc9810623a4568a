"""Times as the agency writes them, and minutes as the program prints them."""
from __future__ import annotations

import unittest

from desk.times import (arrival_minute, departure_minute, format_minute, format_time, is_no_time, parse_minute, parse_time)


class Times(unittest.TestCase):
    """Times in form and not in form."""

    def test_times(self) -> None:
        for text, seconds in (("6:00:00", 21600), (" 06:00:01 ", 21601), ("24:05:00", 86700), ("99:59:59", 359999), ("00:00:00", 0),
                              ("", None), ("6:0:0", None), ("6:60:00", None), ("06:00", None), ("100:00:00", None), ("-1:00:00", None),
                              ("06:00:00\n", None), ("٠6:00:00", None), ("\t06:00:00", None)):
            with self.subTest(text=text):
                self.assertEqual(seconds, parse_time(text))

    def test_minutes(self) -> None:
        for text, minute in (("6:05", 365), (" 99:59 ", 5999), ("06:05:00", None), ("6:5", None), ("", None)):
            with self.subTest(text=text):
                self.assertEqual(minute, parse_minute(text))

    def test_written(self) -> None:
        self.assertEqual(("06:05", "100:00", "-00:10"), (format_minute(365), format_minute(6000), format_minute(-10)))
        self.assertEqual(("00:00:09", "25:01:00"), (format_time(9), format_time(90060)))

    def test_departures_are_rounded_down_and_arrivals_up(self) -> None:
        self.assertEqual((6, 6, 7), (departure_minute(360), departure_minute(419), departure_minute(420)))
        self.assertEqual((6, 7, 7), (arrival_minute(360), arrival_minute(361), arrival_minute(420)))

    def test_empty_times(self) -> None:
        self.assertEqual([True, True, False], [is_no_time(text) for text in ("", "  ", "\t")])
