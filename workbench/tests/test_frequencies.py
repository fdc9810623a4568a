"""Repeated trips are written out by the rules of the GTFS reference."""
from __future__ import annotations

from collections import Counter
from unittest import mock

from desk.errors import DeskError
from desk.frequencies import expand, read_periods
from desk.records import open_records
from tests.feeds import FolderTest, demonstration, write_feed

HEAD = "trip_id,start_time,end_time,headway_secs,exact_times\n"
TRIPS = "route_id,service_id,trip_id,block_id\nR,W,P,b1\nR,W,Q,b2\n"
TIMES = ("trip_id,arrival_time,departure_time,stop_id,stop_sequence,stop_headsign\n"
         "Q,09:00:00,09:00:00,A,1,\nP,06:09:30,06:10:00,B,20,\nQ,10:00:00,10:00:00,B,2,\nP,05:59:00,06:00:00,A,3,\"To B, direct\"\nP,,,M,7,\n")


class Repeated(FolderTest):
    """What stands in the two files."""

    def repeats(self, frequencies: str, times: str = TIMES, trips: str = TRIPS):
        """Writes out a small feed, and gives what became of it with the records of both files."""
        write_feed(self.room / "agency", {"frequencies.txt": frequencies, "trips.txt": trips, "stop_times.txt": times})
        found = expand(self.room / "agency", self.room)
        with open_records(self.room / "trips.txt") as of_trips, open_records(self.room / "stop_times.txt") as of_times:
            return found, [fields for _, fields in of_trips], [fields for _, fields in of_times]

    def test_each_repetition_is_a_trip_with_its_times_moved(self) -> None:
        found, trips, times = self.repeats(HEAD + "P,07:30:00,08:30:00,1800,1\n")
        self.assertEqual((1, 2, set(), []), (found.patterns, found.trips, found.inexact, found.left))
        self.assertEqual([["R", "W", "P@07:30:00", ""], ["R", "W", "P@08:00:00", ""], ["R", "W", "Q", "b2"]], trips)
        self.assertEqual(sorted([
            ["Q", "09:00:00", "09:00:00", "A", "1", ""], ["Q", "10:00:00", "10:00:00", "B", "2", ""],
            ["P@07:30:00", "07:29:00", "07:30:00", "A", "3", "To B, direct"], ["P@07:30:00", "", "", "M", "7", ""],
            ["P@07:30:00", "07:39:30", "07:40:00", "B", "20", ""],
            ["P@08:00:00", "07:59:00", "08:00:00", "A", "3", "To B, direct"], ["P@08:00:00", "", "", "M", "7", ""],
            ["P@08:00:00", "08:09:30", "08:10:00", "B", "20", ""]]), sorted(times))

    def test_a_period_ends_before_its_end(self) -> None:
        for end, count in (("06:59:59", 2), ("07:00:00", 2), ("07:00:01", 3), ("06:00:01", 1)):
            with self.subTest(end=end):
                self.assertEqual(count, self.repeats(HEAD + f"P,06:00:00,{end},1800,\n")[0].trips)

    def test_periods_of_one_trip_follow_on_one_another(self) -> None:
        _, trips, _ = self.repeats(HEAD + "P,07:00:00,07:20:00,600,0\nP,06:00:00,07:00:00,1800,0\n")
        self.assertEqual(["P@06:00:00", "P@06:30:00", "P@07:00:00", "P@07:10:00"], [fields[2] for fields in trips][:4])

    def test_after_midnight(self) -> None:
        _, trips, times = self.repeats(HEAD + "P,23:45:00,25:00:00,1800,\n")
        self.assertEqual(["P@23:45:00", "P@24:15:00", "P@24:45:00"], [fields[2] for fields in trips][:3])
        self.assertIn(["P@24:45:00", "24:54:30", "24:55:00", "B", "20", ""], times)

    def test_none_is_moved_to_before_midnight(self) -> None:
        _, _, times = self.repeats(HEAD + "P,00:00:00,00:10:00,900,\n")
        self.assertIn(["P@00:00:00", "00:00:00", "00:00:00", "A", "3", "To B, direct"], times)

    def test_exact_times_are_told(self) -> None:
        for exact, inexact in (("1", set()), ("0", {"P"}), ("", {"P"})):
            self.assertEqual(inexact, self.repeats(HEAD + f"P,06:00:00,07:00:00,600,{exact}\n")[0].inexact)
        self.assertEqual({"P"}, self.repeats("trip_id,start_time,end_time,headway_secs\nP,06:00:00,07:00:00,600\n")[0].inexact)

    def test_a_stop_without_an_end_takes_its_arrival(self) -> None:
        times = "trip_id,arrival_time,departure_time,stop_id,stop_sequence\nP,06:00:00,,A,1\nP,06:10:00,06:10:00,B,2\n"
        self.assertIn(["P@08:00:00", "08:10:00", "08:10:00", "B", "2"], self.repeats(HEAD + "P,08:00:00,08:01:00,600,1\n", times)[2])

    def test_trips_that_cannot_be_repeated_stay_and_are_told(self) -> None:
        found, trips, times = self.repeats(HEAD + "X,06:00:00,07:00:00,600,\nP,06:00:00,07:00:00,600,\nQ,06:00:00,07:00:00,600,\n",
                                           TIMES.replace("05:59:00,06:00:00", ",") + "X,06:00:00,06:00:00,A,1\n")
        self.assertEqual(["trip P has no time at a first stop in stop_times.txt, so it is not repeated",
                          "trip X is not in trips.txt"], found.left)
        self.assertEqual(["R", "W", "P", "b1"], trips[0])
        self.assertEqual({"P": 3, "X": 1}, {name: count for name, count in Counter(fields[0] for fields in times).items() if "@" not in name})
        self.assertEqual((1, 6), (found.patterns, found.trips))

    def test_where_nothing_is_repeated_nothing_is_written(self) -> None:
        for frequencies, left in (("", 0), ("X,06:00:00,07:00:00,600,\n", 1)):
            write_feed(self.room / "agency", {"frequencies.txt": HEAD + frequencies, "trips.txt": TRIPS, "stop_times.txt": TIMES})
            found = expand(self.room / "agency", self.room)
            self.assertEqual((0, 0, left, ["agency"]), (found.patterns, found.trips, len(found.left), [path.name for path in self.room.iterdir()]))

    def test_bytes_that_are_not_utf8_stay(self) -> None:
        write_feed(self.room / "agency", {"frequencies.txt": HEAD + "P,06:00:00,07:00:00,600,\n", "stop_times.txt": TIMES,
                                          "trips.txt": TRIPS.encode() + b"R,W,caf\xe9,\n"})
        expand(self.room / "agency", self.room)
        self.assertTrue((self.room / "trips.txt").read_bytes().endswith(b"R,W,caf\xe9,\n"))

    def test_the_demonstration_feed(self) -> None:
        write_feed(self.room / "agency", demonstration())
        found = expand(self.room / "agency", self.room)
        # 06:00 to 22:00 every 30 minutes; 4 of the early hours, 12 and 18 of the peaks, 12 and 6 of the others, for both directions
        self.assertEqual((3, 32 + 2 * (4 + 12 + 12 + 18 + 6)), (found.patterns, found.trips))
        with open_records(self.room / "trips.txt") as records:
            self.assertEqual(found.trips + 8, len({fields[records.column("trip_id")] for _, fields in records}))


class RefusedFrequencies(FolderTest):
    """What is refused, with its record."""

    def test_fields_that_are_not_in_form(self) -> None:
        for fields, message in (("P,6:00,07:00:00,600,", "bad start_time"), ("P,06:00:00,,600,", "bad end_time"),
                                ("P,06:00:00,07:00:00,0,", "bad headway_secs"), ("P,06:00:00,07:00:00,-5,", "bad headway_secs"), ("P,06:00:00,07:00:00,,", "bad headway_secs"),
                                ("P,06:00:00,07:00:00,²,", "bad headway_secs"), ("P,06:00:00,07:00:00,600,2", "bad exact_times"),
                                ("P,23:00:00,01:00:00,600,", "end_time is not after start_time; times after midnight are written as 24:00:00"),
                                ("P,06:00:00,06:00:00,600,", "end_time is not after start_time")):
            write_feed(self.room, {"frequencies.txt": HEAD + "Q,06:00:00,07:00:00,600,1\n" + fields + "\n"})
            with self.subTest(fields), self.assertRaisesRegex(DeskError, f"^frequencies.txt record 2: {message}"):
                read_periods(self.room / "frequencies.txt")

    def test_periods_that_overlap(self) -> None:
        for first, second in (("06:00:00,08:00:00", "07:59:59,09:00:00"), ("06:00:00,08:00:00", "06:00:00,06:10:00"),
                              ("08:00:00,09:00:00", "06:00:00,08:30:00")):
            write_feed(self.room, {"frequencies.txt": HEAD + f"P,{first},600,\nQ,{first},600,\nP,{second},600,\n"})
            with self.subTest(second), self.assertRaisesRegex(DeskError, "record [13]: the period of trip P overlaps that of record [13]$"):
                read_periods(self.room / "frequencies.txt")

    def test_names_of_repetitions_that_trips_have(self) -> None:
        write_feed(self.room / "agency", {"frequencies.txt": HEAD + "P,06:00:00,07:00:00,600,\n", "stop_times.txt": TIMES,
                                          "trips.txt": TRIPS + "R,W,P@06:10:00,\n"})
        with self.assertRaisesRegex(DeskError, "trips.txt record 3: trip P@06:10:00 has the name of a repetition of trip P"):
            expand(self.room / "agency", self.room)

    def test_times_that_the_program_does_not_read(self) -> None:
        write_feed(self.room / "agency", {"frequencies.txt": HEAD + "P,99:30:00,99:59:00,600,\n", "trips.txt": TRIPS, "stop_times.txt": TIMES})
        with self.assertRaisesRegex(DeskError, "trip P@99:50:00 runs past 99:59:59"):
            expand(self.room / "agency", self.room)

    def test_too_many(self) -> None:
        feed = {"frequencies.txt": HEAD + "P,00:00:00,99:00:00,1,\n", "trips.txt": TRIPS, "stop_times.txt": TIMES}
        write_feed(self.room / "agency", feed)
        with mock.patch("desk.frequencies.MOST_REPEATS", 300_000), self.assertRaisesRegex(DeskError, "more than 300,000 times"):
            expand(self.room / "agency", self.room)
        write_feed(self.room / "agency", {"frequencies.txt": HEAD + "P,06:00:00,07:00:00,600,\n"})
        with mock.patch("desk.frequencies.MOST_BYTES", 300), self.assertRaisesRegex(DeskError, "more than 300 bytes"):
            expand(self.room / "agency", self.room)

    def test_bytes_are_counted_before_they_are_written(self) -> None:
        """324,000 repetitions of a record of a megabyte would be 324 gigabytes, and nothing of them is written."""
        long = "x" * 1_000_000
        often = HEAD + "P,00:00:00,90:00:00,1,\n"
        for file, trips, times in (("trips.txt", f"service_id,trip_id,trip_headsign\nW,P,{long}\n", TIMES),
                                   ("stop_times.txt", TRIPS, TIMES.replace("B,20,", "B,20," + long))):
            write_feed(self.room / "agency", {"frequencies.txt": often, "trips.txt": trips, "stop_times.txt": times})
            with self.subTest(file), self.assertRaisesRegex(DeskError, f"^frequencies.txt: {file} with all repetitions has more than 536,870,912 bytes"):
                expand(self.room / "agency", self.room)
            self.assertLess((self.room / file).stat().st_size, 1000)

    def test_as_many_bytes_as_the_program_reads_are_written(self) -> None:
        write_feed(self.room / "agency", {"frequencies.txt": HEAD + "P,06:00:00,07:00:00,600,\n", "trips.txt": TRIPS, "stop_times.txt": TIMES})
        expand(self.room / "agency", self.room)
        most = max((self.room / name).stat().st_size for name in ("trips.txt", "stop_times.txt"))
        with mock.patch("desk.frequencies.MOST_BYTES", most):
            self.assertEqual(6, expand(self.room / "agency", self.room).trips)
        with mock.patch("desk.frequencies.MOST_BYTES", most - 1), self.assertRaisesRegex(DeskError, f"stop_times.txt .* more than {most - 1} bytes"):
            expand(self.room / "agency", self.room)
