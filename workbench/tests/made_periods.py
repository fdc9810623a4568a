"""Made agencies of a whole period: one with dates that stand alone, one with a night line over two days and a line of school days."""
from __future__ import annotations

import datetime
from collections.abc import Iterable

from desk.times import format_time
from tests.feeds import Feed, table

STOPS = ("stop_id,stop_name,stop_lat,stop_lon",
         [("A", "Abbey", 52.100, -0.450), ("B", "Bridge", 52.120, -0.430), ("C", "Castle", 52.140, -0.460), ("D", "Docks", 52.110, -0.480)])

CALENDAR = "service_id,monday,tuesday,wednesday,thursday,friday,saturday,sunday,start_date,end_date"
EXCEPTIONS = "service_id,date,exception_type"


class Maker:
    """The trips of a feed, with today's blocks, while they are made."""

    def __init__(self) -> None:
        self.trips: list[tuple[object, ...]] = []
        self.times: list[tuple[object, ...]] = []

    def shuttle(self, service: str, line: str, ends: str, minutes: Iterable[int], takes: int) -> None:
        """A vehicle to and fro between two stops: its trips leave at these minutes, each from where the one before has ended."""
        for number, minute in enumerate(minutes):
            self.trip(service, line, f"{service}_{line}_{number}_{minute}", ends[::-1] if number % 2 else ends, minute, takes)

    def trip(self, service: str, line: str, name: str, ends: str, minute: int, takes: int) -> None:
        """A trip of three rows, of which that between its ends has no time."""
        self.trips.append((line, service, name, f"To {ends[1]}", f"{service}-{line}"))
        for place, (stop, time) in enumerate(((ends[0], minute), ("between", None), (ends[1], minute + takes))):
            clock = "" if time is None else format_time(60 * time)
            self.times.append((name, clock, clock, stop, place))

    def feed(self, calendar: Iterable[Iterable[object]], exceptions: Iterable[Iterable[object]]) -> Feed:
        """The files."""
        lines = sorted({str(trip[0]) for trip in self.trips})
        return {"agency.txt": "agency_id,agency_name,agency_url,agency_timezone\nm,Made,http://example.com,Europe/London\n",
                "stops.txt": table(STOPS[0], [*STOPS[1], ("between", "Between", 52.115, -0.445)]),
                "routes.txt": table("route_id,agency_id,route_short_name,route_type", [(line, "m", line, 3) for line in lines]),
                "calendar.txt": table(CALENDAR, calendar), "calendar_dates.txt": table(EXCEPTIONS, exceptions),
                "trips.txt": table("route_id,service_id,trip_id,trip_headsign,block_id", self.trips),
                "stop_times.txt": table("trip_id,arrival_time,departure_time,stop_id,stop_sequence", self.times)}


def with_dates_alone() -> Feed:
    """Weekdays with more on Fridays, Saturdays and Sundays over three months. 24 December stands alone, one Monday is a Sunday, and on
    25 December nothing runs."""
    made = Maker()
    for line, ends, first in (("1", "AB", 360), ("2", "BC", 367), ("3", "CA", 371)):
        made.shuttle("week", line, ends, range(first, 1140, 40), 30)
        made.shuttle("sat", line, ends, range(first + 60, 1080, 60), 30)
    made.shuttle("fri", "1", "AB", range(1157, 1440, 40), 30)
    made.shuttle("sun", "1", "AB", range(540, 1080, 60), 30)
    made.shuttle("eve", "2", "BC", range(420, 900, 35), 30)
    period = ("20261005", "20261231")
    return made.feed([("week", 1, 1, 1, 1, 1, 0, 0, *period), ("fri", 0, 0, 0, 0, 1, 0, 0, *period),
                      ("sat", 0, 0, 0, 0, 0, 1, 0, *period), ("sun", 0, 0, 0, 0, 0, 0, 1, *period)],
                     [("week", "20261026", 2), ("sun", "20261026", 1), ("week", "20261224", 2), ("sun", "20261224", 1),
                      ("eve", "20261224", 1), ("week", "20261225", 2), ("fri", "20261225", 2)])


def with_a_night_line() -> Feed:
    """Weekdays and Saturdays, and two night lines of Fridays and Saturdays whose vehicles may go on with either line.

    Today they change line at each end. One Saturday has no trips, so there are fewer of them than Fridays.
    """
    made = Maker()
    made.shuttle("week", "1", "AB", range(380, 1400, 40), 25)
    made.shuttle("sat", "2", "AB", range(500, 1300, 45), 30)
    for number, minute in enumerate(range(1450, 1650, 40)):
        for vehicle in range(2):
            made.trip("night", "MN"[vehicle], f"night_{'MN'[vehicle]}_{number}", "AB" if number % 2 else "BA", minute, 30)
            made.trips[-1] = *made.trips[-1][:-1], f"night-{(number + vehicle) % 2}"
    period = ("20260907", "20261120")
    return made.feed([("week", 1, 1, 1, 1, 1, 0, 0, *period), ("night", 0, 0, 0, 0, 1, 1, 0, *period),
                      ("sat", 0, 0, 0, 0, 0, 1, 0, *period)], [("sat", "20261003", 2), ("night", "20261003", 2)])


def with_night_and_school() -> Feed:
    """Weekdays, Saturdays and Sundays, with a night line of Fridays and Saturdays and a line of school days that joins the others.

    Two weeks have no school. Without the trips of school days and of the night the vehicles make other trips after one another.
    """
    made = Maker()
    made.shuttle("week", "1", "AB", range(380, 1440, 35), 25)
    made.shuttle("week", "2", "BC", range(395, 1300, 45), 30)
    made.shuttle("sat", "1", "AB", range(480, 1440, 45), 25)
    made.shuttle("sun", "1", "AB", range(540, 1260, 60), 25)
    made.shuttle("night", "N", "BA", range(1450, 1680, 40), 25)
    for number, minute in enumerate((430, 445, 460, 925, 940)):
        made.trip("school", "S", f"school_{number}", "CB" if minute < 700 else "BC", minute, 22)
    made.trip("school", "S", "school_early", "CD", 330, 20)
    period = ("20260907", "20261120")
    free = [datetime.date(2026, 10, 19) + datetime.timedelta(days=day) for day in range(12) if day % 7 < 5]
    return made.feed([("week", 1, 1, 1, 1, 1, 0, 0, *period), ("school", 1, 1, 1, 1, 1, 0, 0, *period),
                      ("night", 0, 0, 0, 0, 1, 1, 0, *period), ("sat", 0, 0, 0, 0, 0, 1, 0, *period),
                      ("sun", 0, 0, 0, 0, 0, 0, 1, *period)], [("school", f"{date:%Y%m%d}", 2) for date in free])
