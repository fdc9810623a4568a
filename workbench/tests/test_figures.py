"""Tests of the figures: each is computed a second way, minute by minute, from the agency's files and those of the program."""
from __future__ import annotations

import csv
import io
import statistics
import tomllib
import unittest
from collections import Counter
from pathlib import Path
from typing import Any

from desk import program
from tests.feeds import FolderTest, needs_program, write_feed
from tests.small_town import plan, rows, small_town, two_trips

KINDS = {"p": "platform", "l": "layover", "e": "empty", "w": "waiting"}


def minute_of(text: str) -> int:
    """The minute of HH:MM."""
    return 60 * int(text.split(":")[0]) + int(text.split(":")[1])


def layovers(feed: Path) -> Any:
    """The layover of each place, as `desk.toml` has it, for feeds without classes."""
    settings = tomllib.loads((feed / "desk.toml").read_text()) if (feed / "desk.toml").exists() else {}
    return lambda place: settings.get("layovers", {}).get(place, settings.get("layover", 0))


class Simulated:
    """Each vehicle, minute by minute: what it does, for which trip, and where it waits."""

    def __init__(self, feed: Path) -> None:
        self.minutes: dict[str, dict[int, tuple[str, str, str]]] = {}
        layover = layovers(feed)
        pulls = {row["terminal"]: row for row in rows(feed / "depot.csv")} if (feed / "depot.csv").exists() else {}
        boards: dict[str, list[dict[str, str]]] = {}
        for row in rows(feed / "boards.csv"):
            boards.setdefault(row["block_id"], []).append(row)
        for block, moves in boards.items():
            day = self.minutes.setdefault(block, {})
            trips = [row for row in moves if row["kind"] == "trip"]
            first, last = trips[0], trips[-1]
            out = int(pulls.get(first["from"], {"pull_out": "0"})["pull_out"])
            home = int(pulls.get(last["to"], {"pull_in": "0"})["pull_in"])
            start, end = minute_of(first["leaves"]), minute_of(last["arrives"])
            day.update({minute: ("w", "", "") for minute in range(start, end)})
            day.update({minute: ("e", first["trip_id"], "") for minute in range(start - out, start)})
            day.update({minute: ("e", last["trip_id"], "") for minute in range(end, end + home)})
            self.fill(day, moves, layover)

    @staticmethod
    def fill(day: dict[int, tuple[str, str, str]], moves: list[dict[str, str]], layover: Any) -> None:
        """Writes what the records say over the waiting, and then gives the waiting to the trip that follows."""
        for at, row in enumerate(moves):
            trip = row["trip_id"] or moves[at + 1]["trip_id"]
            ends = minute_of(row["arrives"])
            for minute in range(minute_of(row["leaves"]), ends):
                stays = row["kind"] == "trip" and minute >= ends - layover(row["to"])
                day[minute] = ("e" if row["kind"] == "dh" else "l" if stays else "p", trip, "")
        following = ("", "")
        for minute in sorted(day, reverse=True):
            kind, trip, _ = day[minute]
            if kind == "w":
                day[minute] = ("w", *following)
            elif kind == "p":
                following = (trip, next(row["from"] for row in moves if row["trip_id"] == trip))

    def count(self, kind: str, trips: set[str] | None = None, block: str | None = None) -> int:
        """The minutes of this kind, of these trips or of all, of this block or of all."""
        return sum(found[0] == kind and (trips is None or found[1] in trips) for name, day in self.minutes.items()
                   if block in (None, name) for found in day.values())

    def waits(self) -> list[tuple[str, str, int, int]]:
        """Each wait: its block, its place, and its first minute and the one after its last."""
        found = []
        for block, day in self.minutes.items():
            for minute in sorted(day):
                if day[minute][0] == "w" and day.get(minute - 1, ("",))[0] != "w":
                    end = minute
                    while day[end][0] == "w":
                        end += 1
                    found.append((block, day[minute][2], minute, end))
        return found


def counted_neighbours(feed: Path) -> dict[str, int]:
    """The neighbours of a plan, pair by pair: a trip is next to another where none of its block, planned or stated, is between."""
    legs = [row for row in rows(feed / "boards.csv") if row["kind"] == "trip"]
    feed_rows = {row["trip_id"]: (place, row) for place, row in enumerate(rows(feed / "trips.txt"))}
    at = {row["trip_id"]: (minute_of(row["leaves"]), feed_rows.get(row["trip_id"], (0, {}))[0]) for row in legs}
    planned = {row["trip_id"]: row["block_id"] for row in legs}
    stated = {trip: feed_rows[trip][1].get("block_id", "") for trip in planned if trip in feed_rows}
    lines = {trip: feed_rows[trip][1].get("route_id", "") for trip in stated}

    def are_next(blocks: dict[str, str], first: str, second: str) -> bool:
        """Whether one trip is the next of its block after the other."""
        return (bool(blocks.get(first)) and blocks.get(first) == blocks.get(second) and at[first] < at[second]
                and not any(blocks.get(other) == blocks[first] and at[first] < at[other] < at[second] for other in at))

    pairs = [(first, second, are_next(planned, first, second), are_next(stated, first, second)) for first in at for second in at]
    return {"neighbours": sum(is_planned for _, _, is_planned, _ in pairs),
            "stated_neighbours": sum(is_stated for *_, is_stated in pairs),
            "kept_neighbours": sum(is_planned and is_stated for _, _, is_planned, is_stated in pairs),
            "line_changes": sum(is_planned and not (lines.get(first) and lines[first] == lines.get(second))
                                for first, second, is_planned, _ in pairs)}


class OfAFeed(FolderTest):
    """A planned feed whose figures are compared with those of the simulation."""

    def compare(self, feed: Path, route_lines: dict[str, str]) -> None:
        """Compares all figures of a feed."""
        found, other = self.answer("figures", feed), Simulated(feed)
        self.compare_sums(feed, found, other)
        self.compare_lines(feed, found, other, route_lines)
        self.compare_blocks(found, other)
        self.compare_service(found, other)
        self.compare_waits(found, other)

    def compare_sums(self, feed: Path, found: dict[str, Any], other: Simulated) -> None:
        """The sums, and what the program says."""
        said = program.run(["check", feed]).text.decode().splitlines()[-1]
        self.assertEqual(said, f"yes, vehicles {found['vehicles']}, minutes {found['empty']}")
        self.assertEqual(found["vehicles"], len(other.minutes))
        for kind, name in KINDS.items():
            self.assertEqual(found[name], other.count(kind), name)
        self.assertEqual(found["span"], sum(map(len, other.minutes.values())))
        self.assertEqual(found["trips"], len(rows(feed / "blocks.csv")))
        self.assertAlmostEqual(found["empty_share"], other.count("e") / (other.count("e") + other.count("p")))
        neighbours = counted_neighbours(feed)
        self.assertEqual({name: found[name] for name in neighbours}, neighbours)

    def compare_lines(self, feed: Path, found: dict[str, Any], other: Simulated, route_lines: dict[str, str]) -> None:
        """The lines."""
        trips: dict[str, set[str]] = {}
        routes = {row["trip_id"]: row["route_id"] for row in rows(feed / "trips.txt")}
        for row in rows(feed / "blocks.csv"):
            trips.setdefault(route_lines.get(routes.get(row["trip_id"], ""), ""), set()).add(row["trip_id"])
        self.assertEqual({row["line"] for row in found["lines"]}, set(trips))
        for row in found["lines"]:
            self.assertEqual(row, {"line": row["line"], "trips": len(trips[row["line"]])}
                             | {name: other.count(kind, trips[row["line"]]) for kind, name in KINDS.items()})

    def compare_blocks(self, found: dict[str, Any], other: Simulated) -> None:
        """The blocks, and the shortest and longest of them."""
        spans, lengths = {}, {}
        for row in found["blocks"]:
            day = other.minutes[row["block"]]
            spans[row["block"]], lengths[row["block"]] = len(day), len(day) - other.count("w", block=row["block"])
            self.assertEqual((minute_of(row["leaves"]), minute_of(row["returns"])), (min(day), max(day) + 1))
            self.assertEqual((row["span"], row["length"]), (len(day), lengths[row["block"]]))
            for kind, name in KINDS.items():
                self.assertEqual(row[name], other.count(kind, block=row["block"]))
        for summary, values in ((found["spans"], spans), (found["lengths"], lengths)):
            self.assertEqual((summary["shortest"], summary["longest"]), (min(values.values()), max(values.values())))
            self.assertEqual((values[summary["shortest_block"]], values[summary["longest_block"]]), (summary["shortest"], summary["longest"]))
            self.assertEqual(summary["median"], statistics.median(values.values()))
            self.assertAlmostEqual(summary["mean"], sum(values.values()) / len(values))

    def compare_service(self, found: dict[str, Any], other: Simulated) -> None:
        """The vehicles in service: in each quarter hour the most at one minute."""
        away = Counter(minute for day in other.minutes.values() for minute in day)
        expected = {}
        for quarter in range(min(away) // 15, max(away) // 15 + 1):
            expected[quarter] = max(away[minute] for minute in range(15 * quarter, 15 * quarter + 15))
        self.assertEqual({minute_of(row["from"]) // 15: row["vehicles"] for row in found["in_service"]}, expected)

    def compare_waits(self, found: dict[str, Any], other: Simulated) -> None:
        """The waits, and the places where vehicles wait."""
        waits = other.waits()
        self.assertEqual(sorted((row["block"], row["place"], minute_of(row["from"]), minute_of(row["to"])) for row in found["waits"]), sorted(waits))
        minutes = [row["minutes"] for row in found["waits"]]
        self.assertEqual(minutes, sorted(minutes, reverse=True))
        places = Counter()
        for _, place, start, end in waits:
            places[place] += end - start
        self.assertEqual({row["place"]: row["minutes"] for row in found["places"]}, dict(places))
        self.assertEqual([row["minutes"] for row in found["places"]], sorted(places.values(), reverse=True))


@needs_program
class Figures(OfAFeed):
    """The figures of the small town and of small feeds, and their three forms."""

    def test_the_small_town(self) -> None:
        feed = small_town(self.room / "town")
        plan(feed)
        self.compare(feed, {row["route_id"]: row["route_short_name"] for row in rows(feed / "routes.txt")})
        self.compare_forms(feed)

    def compare_forms(self, feed: Path) -> None:
        """The records and the text say what the JSON says."""
        found = self.answer("figures", feed)
        records = list(csv.DictReader(io.StringIO(self.desk("figures", feed, "--csv")[1], newline="")))
        value = {(row["table"], row["of"], row["figure"]): row["value"] for row in records}
        self.assertEqual(len(value), len(records))
        self.assertEqual(value["all", "", "platform"], str(found["platform"]))
        self.assertEqual({row["of"]: row["value"] for row in records if row["table"] == "in_service"},
                         {row["from"]: str(row["vehicles"]) for row in found["in_service"]})
        for block in found["blocks"]:
            self.assertEqual(value["blocks", block["block"], "span"], str(block["span"]))
        text = self.desk("figures", feed)[1].splitlines()
        self.assertEqual(text[0], "vehicles 10, empty minutes 216, as the program says")
        for line in ("platform 69:29", "layover 17:48", "empty 3:36, 4.9 % of platform and empty", "waiting 48:36", "in all 139:29"):
            self.assertIn(line, text)
        self.assertIn(f"neighbours in blocks {found['neighbours']}, changes of line {found['line_changes']}", text)
        self.assertIn(f"neighbours that the feed states {found['stated_neighbours']}, kept {found['kept_neighbours']}", text)
        self.assertTrue(0 < found["kept_neighbours"] < found["stated_neighbours"])
        self.assertTrue(0 < found["line_changes"] < found["neighbours"] == 178)
        longest = found["spans"]
        self.assertTrue(any(line.endswith(f"longest {longest['longest'] // 60}:{longest['longest'] % 60:02} ({longest['longest_block']})")
                            for line in text if line.startswith("span")))

    def test_two_trips_between_ways_out_and_home(self) -> None:
        feed = two_trips(self.room / "feed")
        plan(feed)
        self.compare(feed, {"R": "9"})

    def test_two_trips_with_a_shift_and_an_extra_trip(self) -> None:
        feed = two_trips(self.room / "feed", {"desk.toml": "layover = 3\nlate = 2\n", "edits.csv": "shift,U1,+2\nextra,E1,A,B,08:00,08:20\n"})
        plan(feed)
        self.compare(feed, {"R": "9"})

    def test_neighbours_by_the_script_and_of_no_line(self) -> None:
        """Neighbours that the feed states follow on one another by departure, also where a cancelled trip was between. An extra one
        has no line, nor has one whose route_id is empty. U5 and U6 depart together, so they come as in trips.txt."""
        times = [("U1", "06:00", "A", "06:10", "B"), ("U2", "06:20", "B", "06:30", "A"), ("U3", "06:40", "A", "06:50", "B"),
                 ("U4", "07:00", "B", "07:10", "A"), ("U6", "07:20", "A", "07:30", "B"), ("U5", "07:20", "C", "07:40", "D")]
        feed = two_trips(self.room / "feed", {
            "trips.txt": "trip_id,route_id,service_id,block_id\nU1,R,W,x\nU2,R,W,x\nU3,R,W,x\nU4,,W,y\nU6,,W,y\nU5,S,W,y\n",
            "stop_times.txt": "trip_id,arrival_time,departure_time,stop_id,stop_sequence\n" + "".join(
                f"{trip},{at}:00,{at}:00,{stop},{number}\n" for trip, leaves, start, arrives, end in times
                for number, (at, stop) in enumerate(((leaves, start), (arrives, end)))),
            "edits.csv": "cancel,U2\nextra,E1,B,A,06:15,06:25\n", "deadheads.csv": "from,to,minutes\n"})
        plan(feed)
        found = self.answer("figures", feed)
        names = "neighbours", "stated_neighbours", "kept_neighbours", "line_changes"
        self.assertEqual([found[name] for name in names], [4, 3, 1, 4])
        self.assertEqual({name: found[name] for name in names}, counted_neighbours(feed))
        write_feed(feed, {"edits.csv": ""})
        plan(feed)
        found = self.answer("figures", feed)
        self.assertEqual([found[name] for name in names], [4, 4, 3, 2])

    def test_a_vehicle_that_leaves_the_day_before(self) -> None:
        feed = two_trips(self.room / "feed", {
            "stop_times.txt": "trip_id,arrival_time,departure_time,stop_id,stop_sequence\n"
                              "U1,00:05:00,00:05:00,A,1\nU1,00:30:00,00:30:00,B,2\nU2,24:50:00,24:50:00,C,1\nU2,25:30:00,25:30:00,A,2\n"})
        plan(feed)
        found = self.answer("figures", feed)
        self.assertEqual(found["blocks"][0]["leaves"], "-00:05")
        self.assertEqual(found["in_service"][0], {"from": "-00:15", "vehicles": 1})
        self.assertEqual(len(found["in_service"]), 1 + 25 * 4 + 3)
        self.assertIn("\n -00:15 1\n 00:00 1", self.desk("figures", feed)[1])

    def test_a_day_without_trips(self) -> None:
        feed = two_trips(self.room / "feed", {"desk.toml": "services = []\n"})
        plan(feed)
        found = self.answer("figures", feed)
        self.assertEqual((found["vehicles"], found["spans"], found["in_service"], found["empty_share"]), (0, None, [], 0.0))
        self.assertTrue(self.desk("figures", feed)[1].startswith("vehicles 0, empty minutes 0"))

    def test_damaged_blocks_are_refused_in_words(self) -> None:
        feed = two_trips(self.room / "feed")
        plan(feed)
        (feed / "blocks.csv").write_text("block_id,trip_id,deadhead\nB1,U1,10\nB1,U2,x\n")
        self.assertEqual(self.desk("figures", feed), (
            1, "", f"desk: check says no: blocks.csv record 2: not in form: `./desk blocks {feed}` plans anew\n"))


if __name__ == "__main__":
    unittest.main()
