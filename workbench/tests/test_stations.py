"""Terminals are drafted from stations, names and coordinates."""
from __future__ import annotations

import unittest

from desk.records import records_of
from desk.stations import draft_terminals, plain, terminals_text
from desk.stops import Point, Stop, parse_point, read_stops
from tests.feeds import FolderTest, write_feed

METRE = 1 / 111_195
"""A metre to the north, in degrees."""


def stop(name: str, called: str, metres: float | None = 0, parent: str = "") -> Stop:
    """A stop so many metres north of the equator; without coordinates for None."""
    return Stop(name, called, None if metres is None else Point(metres * METRE, 10.0), parent)


def drafted(*stops: Stop, ends: str | None = None) -> dict[str, str]:
    """The terminal of each stop of a draft."""
    named = {stop.stop_id: stop for stop in stops}
    terminals = draft_terminals(ends.split() if ends is not None else named, named)
    return {stop_id: terminal.name for terminal in terminals for stop_id in terminal.stops}


class Drafted(unittest.TestCase):
    """Which stops are one terminal, and its name."""

    def test_by_station(self) -> None:
        stops = (stop("s", "Station"), stop("a", "Bay A", 0, "s"), stop("b", "Bay B", 900, "s"), stop("c", "Bay C", 0, "s"))
        self.assertEqual({"a": "Station", "b": "Station"}, drafted(*stops, ends="b a"))

    def test_by_a_station_over_another(self) -> None:
        self.assertEqual({"a": "Station"}, drafted(stop("s", "Station"), stop("p", "Platform", 0, "s"), stop("a", "Area", 0, "p"), ends="a"))

    def test_a_station_that_is_not_there_or_a_part_of_itself(self) -> None:
        self.assertEqual({"a": "Bay A"}, drafted(stop("a", "Bay A", 0, "gone")))
        self.assertEqual({"a": "Bay A", "b": "Bay B"}, drafted(stop("a", "Bay A", 0, "b"), stop("b", "Bay B", 0, "a")))

    def test_by_one_name_within_200_metres(self) -> None:
        stops = (stop("a", "High Street"), stop("b", "High  Street", 199), stop("c", "High Street", 398), stop("d", "Low Street", 1),
                 stop("e", "High Street", None))
        self.assertEqual({"a": "High Street (a)", "b": "High Street (a)", "c": "High Street (c)", "d": "Low Street",
                          "e": "High Street (e)"}, drafted(*stops))

    def test_a_stop_with_the_name_of_a_station_joins_it(self) -> None:
        stops = (stop("s", "Station"), stop("x", "Station", 150), stop("a", "Bay A", 0, "s"), stop("y", "Station", 201))
        self.assertEqual({"a": "Station (s)", "x": "Station (s)", "y": "Station (y)"}, drafted(*stops, ends="x a y"))

    def test_stops_without_names(self) -> None:
        self.assertEqual({"a": "a", "b": "b", "s1": "s"}, drafted(stop("a", ""), stop("b", "", 10), stop("s1", "", 0, "s")))

    def test_names_are_distinct_from_each_other_and_from_foreign_stops(self) -> None:
        stops = (stop("s", "Mill"), stop("t", "Mill", 5000), stop("s1", "1", 0, "s"), stop("t1", "1", 5000, "t"),
                 stop("Mill (s)", "Other", 9000), stop("u", "s1", 7000), stop("Own", "Own", 8000))
        self.assertEqual({"s1": "Mill (s, 2)", "t1": "Mill (t)", "u": "s1 (u)", "Own": "Own"}, drafted(*stops, ends="s1 t1 u Own"))

    def test_stops_that_the_agency_does_not_tell_of(self) -> None:
        self.assertEqual({"a": "Bay", "b": "b"}, drafted(stop("a", "Bay"), ends="a b"))

    def test_names_are_on_one_line_and_in_utf8(self) -> None:
        for name, read in (("a\nb\t c\0", "a b c"), ("caf\udce9", "café"), ("\udc81", "\ufffd"), ("  ", ""), ("Zürich\u00a0HB", "Zürich HB")):
            with self.subTest(name=name):
                self.assertEqual(read, plain(name))

    def test_the_text_is_read_as_it_was_meant(self) -> None:
        stops = {"a,1": stop("a,1", 'The "Gate", North')}
        text = terminals_text(draft_terminals(["a,1"], stops))
        self.assertEqual([(1, ["a,1", 'The "Gate", North'])], list(records_of("terminals.csv", text)))

    def test_many_stops_of_one_name(self) -> None:
        stops = {str(number): stop(str(number), "Stop", 250 * number) for number in range(1000)}
        self.assertEqual(1000, len(draft_terminals(stops, stops)))


class Stops(FolderTest):
    """The agency's stops."""

    def test_coordinates(self) -> None:
        for latitude, longitude, point in (("52.1", " -0.5 ", Point(52.1, -0.5)), ("", "", None), ("x", "1", None),
                                           ("91", "0", None), ("1", "181", None),
                                           ("nan", "1", None), ("0", "0.0", None), ("0", "1", Point(0, 1)), ("inf", "1", None)):
            with self.subTest(latitude=latitude):
                self.assertEqual(point, parse_point(latitude, longitude))

    def test_great_circles(self) -> None:
        # a quarter of a meridian, one degree of the equator, one degree at 60 degrees north, and over the date line
        for first, second, metres in ((Point(0, 0), Point(90, 0), 10_007_543), (Point(0, 0), Point(0, 1), 111_195),
                                      (Point(60, 0), Point(60, 1), 55_597), (Point(0, 179.5), Point(0, -179.5), 111_195),
                                      (Point(0, 0), Point(0, 180), 20_015_087), (Point(5, 5), Point(5, 5), 0)):
            with self.subTest(second=second):
                self.assertAlmostEqual(metres, first.metres_to(second), delta=2)
                self.assertEqual((True, metres == 0), (first.is_within(metres + 2, second), first.is_within(metres - 2 if metres else 0, second)))

    def test_columns_that_are_not_there(self) -> None:
        write_feed(self.room, {"stops.txt": "stop_name,stop_id\nA,a\n"})
        self.assertEqual({"a": Stop("a", "A", None, "")}, read_stops(self.room / "stops.txt"))
