"""The trips of the day are those that the program plans, with the same ends and minutes."""
from __future__ import annotations

import re
import shutil

from desk.errors import DeskError
from desk.program import ROOT, run
from desk.times import arrival_minute, departure_minute, format_minute
from desk.town import Town
from tests.feeds import FolderTest, agency, demonstration, needs_program, write_feed


def lines_of_day(town: Town) -> set[str]:
    """What `fixed` prints of each trip, by what the town says."""
    layovers = {trip.trip_id: town.layover(town.terminal(trip.last_stop)) for trip in town.day()}
    return {f"{trip.trip_id} {format_minute(departure_minute(trip.departure or 0))} "
            f"{format_minute(arrival_minute(trip.arrival or 0) + layovers[trip.trip_id])}" for trip in town.day()}


class TownOfAgency(FolderTest):
    """What a town reads of its files."""

    def test_the_day(self) -> None:
        write_feed(self.room, agency())
        (self.room / "desk.toml").write_text('\ufeffdate = "20260901"\nlayover = 4\n[layovers]\nHarbour = 9\n[classes]\nline_1 = "big"\n')
        (self.room / "terminals.csv").write_text("terminal,stop_id\nCentral,central_1\nHarbour,harbour_1\n")
        town = Town(self.room)
        trip = town.day()[0]
        self.assertEqual(602, len(town.day()))
        self.assertEqual(("weekday_1_0_0300", "weekday", "line_1", "To harbour, direct", "1.1", "big", 3, 1),
                         (trip.trip_id, trip.service_id, trip.route_id, trip.headsign, trip.block_id, trip.vehicle_class, trip.rows, trip.record))
        self.assertEqual(("central_1", "harbour_1", "Central/big", "Harbour/big"), (trip.first_stop, trip.last_stop, trip.start, trip.end))
        self.assertEqual((18010, 19055), (trip.departure, trip.arrival))
        self.assertEqual((9, 4, "elsewhere"), (town.layover("Harbour"), town.layover("Central"), town.terminal("elsewhere")))
        self.assertEqual("Central Station, platform 1", town.stops["central_1"].name)
        self.assertEqual("", next(trip for trip in town.day() if trip.route_id == "line_2").vehicle_class)

    def test_rows_in_any_order_and_empty_times(self) -> None:
        times = ("stop_sequence,trip_id,arrival_time,departure_time,stop_id\n"
                 " 9 ,U,07:00:00,,Z\n3,X,bad,bad,Q\n5,U,,,M\n1,U,06:00:00, ,A\n")
        write_feed(self.room, {"trips.txt": "trip_id,service_id\nU,W\nV,W\n", "stop_times.txt": times})
        trip, other = Town(self.room).day()
        self.assertEqual(("A", "Z", 21600, 25200, None), (trip.first_stop, trip.last_stop, trip.departure, trip.arrival, trip.vehicle_class))
        self.assertEqual(("", "", None, None, 0), (other.first_stop, other.end, other.departure, other.arrival, other.rows))

    def test_services_that_are_listed(self) -> None:
        write_feed(self.room, {**agency(), "desk.toml": 'date = "20260901"\nservices = ["school", "sunday", 7]\n'})
        self.assertEqual({"school"}, {trip.service_id for trip in Town(self.room).day()})

    def test_settings_stand_in_place_of_the_file(self) -> None:
        write_feed(self.room, {**agency(), "desk.toml": "not TOML"})
        self.assertEqual(270, len(Town(self.room, {"date": "20260905"}).day()))

    def test_files_of_the_agency_beside(self) -> None:
        write_feed(self.room, {"stops.txt": "stop_id\nhere\n"})
        self.assertEqual(["here"], list(Town(self.room).stops))
        write_feed(self.room / "agency", {"stops.txt": "stop_id,stop_lat,stop_lon\nthere,1,x\n"})
        self.assertEqual(["there"], list(Town(self.room).stops))

    def test_what_is_not_in_form(self) -> None:
        head = "trip_id,arrival_time,departure_time,stop_id,stop_sequence\n"
        for files, message in (({"desk.toml": "layover: 5\n"}, r"desk.toml: not TOML: .*line 1"),
                               ({"trips.txt": None}, "trips.txt: missing"),
                               ({"stop_times.txt": head + "AB1,,,S,x\n"}, "stop_times.txt record 1: bad stop_sequence"),
                               ({"stop_times.txt": head + "AB1,6:00,,S,1\n"}, "stop_times.txt record 1: bad time"),
                               ({"terminals.csv": "stop;terminal\n"}, "terminals.csv: no column stop_id")):
            with self.subTest(message):
                shutil.rmtree(self.room)
                write_feed(self.room, {name: text for name, text in {**demonstration(), **files}.items() if text is not None})
                with self.assertRaisesRegex(DeskError, message):
                    Town(self.room).day()

    @needs_program
    def test_the_program_has_the_same_day(self) -> None:
        write_feed(self.room / "made", {**agency(), "desk.toml": 'date = "20260901"\nlayover = 7\n[layovers]\nedge = 3\n'})
        write_feed(self.room / "demonstration", {**demonstration(), "desk.toml": 'date = "20070602"\n'})
        shutil.copytree(ROOT / "examples" / "small_town", self.room / "small_town")
        shutil.copytree(ROOT / "examples" / "two_classes", self.room / "two_classes")
        for folder in sorted(self.room.iterdir()):
            with self.subTest(folder.name):
                text = run(["fixed", folder]).text.decode()
                found = {re.sub("^out [0-9]+; ", "", part) for line in text.splitlines()[:-1] for part in line.split(": ", 1)[1].split("; ")}
                self.assertEqual({part for part in found if not part.startswith("in ")}, lines_of_day(Town(folder)))

    @needs_program
    def test_the_program_has_the_same_places(self) -> None:
        for name in ("small_town", "two_classes", "past_midnight"):
            with self.subTest(name):
                text = run(["deficits", ROOT / "examples" / name]).text.decode()
                places = set(re.findall("^(.*) max [0-9]+ at [0-9:]+$", text, flags=re.M))
                ends = {place for trip in Town(ROOT / "examples" / name).day() for place in (trip.start, trip.end)}
                self.assertEqual(ends, places & ends)
                self.assertTrue(ends)
