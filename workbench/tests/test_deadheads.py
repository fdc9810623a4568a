"""Minutes of empty running are drafted from coordinates."""
from __future__ import annotations

import unittest

from desk.deadheads import Depot, Pace, Way, draft_pulls, draft_ways, find_depot, pulls_text, readable, ways_text
from desk.errors import DeskError, UsageError
from desk.stations import Terminal
from desk.stops import Point, Stop

PACE = Pace(1.3, 25)


def terminal(name: str, point: Point | None, *stops: str, by_station: bool = False) -> Terminal:
    """A terminal of a test."""
    return Terminal(name.lower(), name, point, list(stops), by_station)


A, B, C = terminal("A", Point(0, 10), "a1"), terminal("B", Point(0, 10.1), "b1"), terminal("C", None, "c1")


class Minutes(unittest.TestCase):
    """How long a way takes."""

    def test_great_circle_by_detour_by_speed_rounded_up(self) -> None:
        # 11,119.5 metres by 1.3 are 14.455 km, which at 25 km/h take 34.69 minutes
        for pace, other, minutes in ((PACE, Point(0, 10.1), 35), (Pace(1, 60), Point(0, 10.1), 12), (Pace(2, 60), Point(0, 10.1), 23),
                                     (PACE, Point(0, 10), 1), (PACE, Point(0, 10.00001), 1)):
            with self.subTest(pace=pace, other=other):
                self.assertEqual(minutes, pace.minutes(Point(0, 10), other))


class Ways(unittest.TestCase):
    """Which records are drafted."""

    def test_between_each_two_terminals_with_coordinates(self) -> None:
        self.assertEqual([Way("A", "B", 35), Way("B", "A", 35)], draft_ways([A, B, C], None, PACE))
        self.assertEqual("from,to,minutes\nA,B,35\nB,A,35\n", ways_text(draft_ways([A, B, C], None, PACE)))

    def test_the_depot_is_a_place(self) -> None:
        depot = Depot("Depot", Point(0, 10.1), None)
        self.assertEqual([Way("A", "Depot", 35), Way("Depot", "A", 35)], draft_ways([A], depot, PACE))
        self.assertEqual([Way("Depot", "A", 35), Way("Depot", "B", 1)], draft_pulls([A, B, C], depot, PACE))
        self.assertEqual("terminal,pull_out,pull_in\nA,35,35\nB,1,1\n", pulls_text(draft_pulls([A, B, C], depot, PACE)))

    def test_a_depot_at_a_terminal_is_no_other_place(self) -> None:
        depot = Depot("B", Point(0, 10.1), B)
        self.assertEqual([Way("A", "B", 35), Way("B", "A", 35)], draft_ways([A, B], depot, PACE))
        self.assertEqual([Way("B", "A", 35), Way("B", "B", 0)], draft_pulls([A, B, C], depot, PACE))

    def test_the_depot_is_no_place_too_many(self) -> None:
        terminals = [terminal(f"T{number}", Point(0, 10 + number / 1000) if number < 2 else None) for number in range(512)]
        depot = Depot("Depot", Point(0, 10), None)
        self.assertEqual({"T0", "T1", "Depot"}, {way.start for way in draft_ways(terminals[:511], depot, PACE)})
        self.assertEqual({"T0", "T1"}, {way.start for way in draft_ways(terminals, depot, PACE)})

    def test_ways_that_a_record_cannot_say_are_left_out(self) -> None:
        self.assertEqual([Way("A", "B", 1440)], readable([Way("A", "B", 1440), Way("A", "C", 1441)]))


class Depots(unittest.TestCase):
    """The depot that is named."""

    stops = {"b1": Stop("b1", "B", Point(0, 10.1), "b"), "b9": Stop("b9", "B", Point(0, 10.1), "b"), "x": Stop("x", "Yard", Point(1, 1), ""),
             "Depot": Stop("Depot", "", None, ""), "1,2": Stop("1,2", "", Point(5, 5), "")}

    def test_forms(self) -> None:
        for text, depot in (("52.1,-0.45", Depot("Depot (garage)", Point(52.1, -0.45), None)),
                            ("-33.9, 18.4", Depot("Depot (garage)", Point(-33.9, 18.4), None)),
                            ("x", Depot("Depot (garage)", Point(1, 1), None)), ("1,2", Depot("Depot (garage)", Point(5, 5), None)),
                            ("b1", Depot("B", Point(0, 10.1), B)), ("b9", Depot("B", Point(0, 10.1), B))):
            with self.subTest(text=text):
                self.assertEqual(depot, find_depot(text, [A, B, C], self.stops))
        self.assertEqual("Depot", find_depot("1,1", [A], {}).name)
        self.assertEqual("Depot (garage)", find_depot("1,1", [terminal("Depot", None)], {}).name)

    def test_what_is_none(self) -> None:
        for text in ("", "nowhere", "91,0", "1;2", "1,2,3", "0,0"):
            with self.subTest(text=text), self.assertRaisesRegex(UsageError, "no stop has this stop_id"):
                find_depot(text, [A], self.stops)
        with self.assertRaisesRegex(DeskError, "--depot Depot: the stop has no coordinates"):
            find_depot("Depot", [A], self.stops)
