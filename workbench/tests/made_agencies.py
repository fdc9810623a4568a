"""Made agencies of any size, with what real feeds have in each file, and with today's blocks.

A vehicle goes to and fro on its line all day, and stays LAYOVER minutes at each end. So its trips are a block of today that can be
run with that layover and with no longer one.
"""
from __future__ import annotations

import datetime
from itertools import count

from desk.times import format_time
from tests.feeds import Feed, table

DAY = datetime.date(2026, 11, 27)
"""A Friday in school time, on which most trips run."""

LAYOVER = 4
BEGIN, END = 290, 1500
"""The minute in which the first vehicle leaves, and the one after which none does; the last trips end after midnight."""

REPEATED = 24
"""How many trips of the day `frequencies.txt` makes of one, each half an hour."""

BAD = {"bad_still": ("08:00:00", "08:00:00"), "bad_back": ("23:50:00", "00:20:00"), "bad_alone": ("08:00:00", None),
       "bad_untimed": ("08:00:00", ""), "bad_time": ("08:00:00", "8h20")}
"""Trips that the program refuses: when each departs, and when it arrives."""


def made_agency(trips: int) -> Feed:
    """The feed of an agency with so many trips that can be planned on DAY, and with three days of another kind."""
    lines = 4 + trips // 160
    made = Maker(lines)
    vehicles = ((line, number) for number in count() for line in range(lines))
    while len(made.day) + REPEATED < trips:
        made.vehicle(*next(vehicles), trips - REPEATED)
    for line in range(0, lines, 2):
        made.other_day(line)
    made.repeated()
    made.bad()
    return made.feed()


class Maker:
    """The rows of the files, while they are made."""

    def __init__(self, lines: int) -> None:
        self.lines = lines
        self.day: list[str] = []
        self.trips: list[tuple[object, ...]] = []
        self.times: list[tuple[object, ...]] = []

    def ends(self, line: int) -> tuple[str, str]:
        """The stops at the two ends of a line: a platform of the centre, or a bay of a stop of two bays, and a lone stop."""
        return f"centre_{1 + line % 5}" if line % 3 else f"mill{line}_{1 + line % 2}", f"end{line}"

    def vehicle(self, line: int, number: int, most: int) -> None:
        """The trips of a vehicle all day, one of them for school days alone."""
        minute, takes = BEGIN + (17 * number + 5 * line) % 60, 14 + line % 23
        for trip in count():
            if minute > END or len(self.day) >= most:
                return
            name = f"L{line}.{number}.{trip}"
            service = "school" if trip == 3 else "friday" if line % 7 == 0 else "weekday"
            self.add(name, line, service, f"{line}/{number}", trip % 2, 60 * minute, takes)
            self.day.append(name)
            minute += takes + LAYOVER

    def add(self, name: str, line: int, service: str, block: str, direction: int, leaves: int, takes: int) -> None:
        """Adds a trip of three rows, of which the one between has no time. It leaves at this second."""
        first, last = self.ends(line)[::-1 if direction else 1]
        self.trips.append((f"route {line}", service, name, f"To {last}, direct", block, ""))
        for place, (stop, seconds) in enumerate(((first, leaves), (f"between{line}", None), (last, leaves + 60 * takes))):
            time = "" if seconds is None else format_time(seconds)
            self.times.append((name, time, time, stop, 10 * place, "1" if seconds is not None else "0"))

    def other_day(self, line: int) -> None:
        """A trip of the holiday, to a terminal that no other day has."""
        name = f"H{line}"
        self.add(name, line, "holiday", f"H/{line}", 0, 36_000, 30)
        self.times[-1] = (*self.times[-1][:3], "park", *self.times[-1][4:])

    def repeated(self) -> None:
        """A trip that is repeated, by way of `frequencies.txt`."""
        self.add("night", 1, "weekday", "", 0, 18_000, 20)

    def bad(self) -> None:
        """The trips that the program refuses."""
        for name, (leaves, arrives) in BAD.items():
            self.trips.append(("route 0", "weekday", name, "", "", ""))
            self.times += [(name, time, time, stop, place, "") for place, (stop, time) in enumerate(zip(self.ends(0), (leaves, arrives)))
                           if time is not None]

    def feed(self) -> Feed:
        """The files, each odd in its own way."""
        times = sorted(self.times, key=lambda row: (str(row[0]), -int(str(row[4]))))
        return {
            "agency.txt": "agency_id,agency_name,agency_url,agency_timezone\r\nmade,\"Made, Ltd\",http://example.com,Europe/London\r\n",
            "stops.txt": "\ufeff" + table("stop_id,stop_code,stop_name,stop_lat,stop_lon,location_type,parent_station", self.stops()),
            "routes.txt": table("route_id,agency_id,route_short_name,route_long_name,route_type,route_color",
                                [(f"route {line}", "made", line, "", 3, "00FF00") for line in range(self.lines)]),
            "calendar.txt": "service_id, monday ,tuesday,wednesday,thursday,friday,saturday,sunday,start_date,end_date\n"
                            "weekday,1,1,1,1,1,0,0,20260901,20261218\n\nfriday,0,0,0,0,1,0,0,20260901,20261218\n,,,,,,,,,\n",
            "calendar_dates.txt": table("service_id,date,exception_type", [("school", f"{DAY:%Y%m%d}", 1), ("school", "20261204", 1),
                                                                           ("holiday", "20261026", 1), ("weekday", "20261026", 2)]),
            "trips.txt": table("route_id,service_id,trip_id,trip_headsign,block_id,wheelchair_accessible", self.trips) + "\n\n",
            "stop_times.txt": table("trip_id,arrival_time,departure_time,stop_id,stop_sequence,timepoint", times).replace(",08:", ",8:"),
            "frequencies.txt": "trip_id,start_time,end_time,headway_secs,exact_times\n"
                               f"night,05:00:00,{format_time(18_000 + 1800 * REPEATED)},1800,1\n",
            "transfers.txt": "from_stop_id,to_stop_id,transfer_type,from_trip_id,to_trip_id\nend0,end1,2,,\nend1,end1,4,night,L1.0.0\n",
            "feed_info.txt": "feed_publisher_name,feed_publisher_url,feed_lang\nMade,http://example.com,en\n"}

    def stops(self) -> list[tuple[object, ...]]:
        """The stops: a station with five platforms, stops of two bays without a station, and lone stops."""
        rows: list[tuple[object, ...]] = [("centre", "", "Centre", 51.5, -1.2, 1, "")]
        rows += [(f"centre_{bay}", bay, f"Centre, bay {bay}", f"51.500{bay}", -1.2, 0, "centre") for bay in range(1, 6)]
        for line in range(self.lines):
            place = 51.4 + line % 9 / 40, -1.3 + line % 11 / 40
            rows += [(f"mill{line}_{bay}", "", f"Mill {line}", f"{place[0] + bay / 5000:.4f}", f"{place[1]:.4f}", 0, "") for bay in (1, 2)]
            rows += [(f"end{line}", "", f"End of line {line}", f"{place[0] + 0.03:.4f}", f"{place[1] + 0.02:.4f}", "", ""),
                     (f"between{line}", "", "High Street", 51.45, -1.25, "", "")]
        return [*rows, ("park", "", "Park", 51.48, -1.22, "", "")]
