"""The least plans of a small feed, found by trying every blocking, how much each is liked, and the names of its blocks. tools/hostile
asks.

It knows feeds without dates, whose trips have two rows each, the first before the last. A plan is liked by the key `prefer` of
desk.toml, and its blocks are named by `block_names`, as docs/FORMATS.md says. After a script only vehicles and minutes are told, since
a repaired plan is not chosen anew.
"""
import csv
import pathlib
import re
import tomllib
from collections import Counter
from collections.abc import Iterator
from itertools import count, pairwise, product
from typing import NamedTuple

PREFERRED = ["stated", "line", "waiting"]
"""What is preferred where desk.toml does not say it."""

Blocking = list[list[int]]
"""The trips of each block in their order, by their places in `trips.txt`."""


class Trip(NamedTuple):
    """A trip that runs: its line, its stated block and its class of vehicles, and where and in which minute it departs and ends."""

    name: str
    line: str
    stated: str
    vehicles: str
    start: str
    departs: int
    end: str
    ends: int


def rows_of(path: pathlib.Path) -> list[dict[str, str]]:
    """The records of a file by the names of its columns; none where it is not there."""
    if not path.exists():
        return []
    with open(path, newline="", encoding="utf-8") as file:
        return list(csv.DictReader(file))


def seconds(time: str) -> int:
    """The seconds of a time of the feed."""
    hours, minutes, rest = map(int, time.split(":"))
    return 3600 * hours + 60 * minutes + rest


class Day:
    """The trips of a feed, the minutes of its ways, and what of a plan is preferred."""

    def __init__(self, folder: pathlib.Path) -> None:
        path = folder / "desk.toml"
        desk = tomllib.loads(path.read_text()) if path.exists() else {}
        self.prefer: list[str] = desk.get("prefer", PREFERRED)
        times: dict[str, list[dict[str, str]]] = {}
        for row in rows_of(folder / "stop_times.txt"):
            times.setdefault(row["trip_id"], []).append(row)
        self.trips = []
        for row in rows_of(folder / "trips.txt"):
            if row["service_id"] in desk.get("services", [row["service_id"]]):
                first, last = times[row["trip_id"]]
                line, end = row.get("route_id", ""), last["stop_id"]
                ends = -(-seconds(last["arrival_time"]) // 60) + desk.get("layovers", {}).get(end, desk.get("layover", 0))
                self.trips.append(Trip(row["trip_id"], line, row.get("block_id", ""), desk.get("classes", {}).get(line, ""),
                                       first["stop_id"], seconds(first["departure_time"]) // 60, end, ends))
        places = {trip.start for trip in self.trips} | {trip.end for trip in self.trips}
        self.walks = least_walks(rows_of(folder / "deadheads.csv"), places)
        self.pulls = {row["terminal"]: (int(row["pull_out"]), int(row["pull_in"])) for row in rows_of(folder / "depot.csv")}
        rules = [(row["before"], row["after"], row["rule"].strip(" ")) for row in rows_of(folder / "pairs.csv")]
        self.never = {(before, after) for before, after, rule in rules if rule == "never"}
        self.kept_after = {before: after for before, after, rule in rules if rule == "keep"}
        self.kept_before = {after: before for before, after, rule in rules if rule == "keep"}
        self.layover = lambda place: desk.get("layovers", {}).get(place, desk.get("layover", 0))
        self.stated = self._stated()

    def _stated(self) -> set[tuple[int, int]]:
        """The neighbours of the stated blocks."""
        order = sorted(range(len(self.trips)), key=lambda trip: (self.trips[trip].departs, trip))
        names = {trip.stated for trip in self.trips} - {""}
        return {pair for name in names for pair in pairwise(trip for trip in order if self.trips[trip].stated == name)}

    def waits(self, first: int, second: int) -> int | None:
        """The minutes that a vehicle waits between two trips; None where it cannot make the second after the first."""
        one, other = self.trips[first], self.trips[second]
        walk = self.walks.get((one.end, other.start))
        if (one.name, other.name) in self.never or self.kept_after.get(one.name, other.name) != other.name or (
                self.kept_before.get(other.name, one.name) != one.name):
            return None
        if walk is None or one.vehicles != other.vehicles or one.ends + walk > other.departs:
            return None
        return other.departs - one.ends - walk

    def blockings(self) -> Iterator[Blocking]:
        """All blockings."""
        order = sorted(range(len(self.trips)), key=lambda trip: self.trips[trip].departs)

        def placed(blocks: Blocking, at: int) -> Iterator[Blocking]:
            if at == len(order):
                yield [block.copy() for block in blocks]
                return
            for block in blocks:
                if self.waits(block[-1], order[at]) is not None:
                    block.append(order[at])
                    yield from placed(blocks, at + 1)
                    block.pop()
            yield from placed([*blocks, [order[at]]], at + 1)
        return placed([], 0)

    def cost(self, blocks: Blocking) -> tuple[int, int]:
        """The vehicles and the empty minutes of a blocking."""
        minutes = 0
        for block in blocks:
            minutes += self.pulls.get(self.trips[block[0]].start, (0, 0))[0] + self.pulls.get(self.trips[block[-1]].end, (0, 0))[1]
            minutes += sum(self.walks[self.trips[first].end, self.trips[second].start] for first, second in pairwise(block))
        return len(blocks), minutes

    def liking(self, blocks: Blocking) -> list[int]:
        """How much a blocking is liked, the greatest most, in the order of what is preferred."""
        pairs = [pair for block in blocks for pair in pairwise(block)]
        lines = [(self.trips[first].line, self.trips[second].line) for first, second in pairs]
        liked = {"stated": len(self.stated.intersection(pairs)), "line": sum(one == other != "" for one, other in lines),
                 "waiting": -sum(self.waits(*pair) or 0 for pair in pairs)}
        return [liked[name] for name in self.prefer]


    def follow(self, records: list[list[str]], accepted: set[int]) -> None:
        """Makes the edits of a script, of whose records the program has accepted those of these numbers."""
        done: list[list[str]] = []
        undone: list[list[str]] = []
        for number, fields in enumerate(records, 1):
            if number in accepted and fields[0] == "undo":
                undone.append(done.pop())
            elif number in accepted and fields[0] == "redo":
                done.append(undone.pop())
            elif number in accepted and fields[0] != "show":
                done.append(fields)
                undone.clear()
        shifts: Counter[str] = Counter()
        cancelled: set[str] = set()
        for word, name, *rest in done:
            if word == "shift":
                shifts[name] += int(rest[0])
            elif word == "extra":
                departs, arrives = (seconds(f"{time}:00") // 60 for time in rest[2:])
                self.trips.append(Trip(name, "", "", "", rest[0], departs, rest[1], arrives + self.layover(rest[1])))
            else:
                (cancelled.add if word == "cancel" else cancelled.discard)(name)
        self.trips = [trip._replace(departs=trip.departs + shifts[trip.name], ends=trip.ends + shifts[trip.name])
                      for trip in self.trips if trip.name not in cancelled]


def least_walks(ways: list[dict[str, str]], places: set[str]) -> dict[tuple[str, str], int]:
    """The least minutes from each place to each to which a way leads."""
    found = {(row["from"], row["to"]): int(row["minutes"]) for row in ways}
    places = places.union(*found)
    found |= {(place, place): 0 for place in places}
    for between, start, end in product(sorted(places), repeat=3):
        if (start, between) in found and (between, end) in found:
            minutes = found[start, between] + found[between, end]
            found[start, end] = min(minutes, found.get((start, end), minutes))
    return found


def wrong_choice(folder: pathlib.Path) -> list[str]:
    """What is wrong with the plan in the `blocks.csv` of a folder, among all blockings."""
    day = Day(folder)
    number = {trip.name: at for at, trip in enumerate(day.trips)}
    chosen: dict[str, list[int]] = {}
    for row in rows_of(folder / "blocks.csv"):
        chosen.setdefault(row["block_id"], []).append(number[row["trip_id"]])
    blocks = list(chosen.values())
    if sorted(trip for block in blocks for trip in block) != sorted(number.values()) or any(
            day.waits(*pair) is None for block in blocks for pair in pairwise(block)):
        return ["blocks.csv is no blocking"]
    least, liked = min((day.cost(other), [-it for it in day.liking(other)]) for other in day.blockings())
    if day.cost(blocks) != least:
        return [f"blocks.csv has {day.cost(blocks)} vehicles and minutes, and {least} are enough"]
    most, own = [-it for it in liked], day.liking(blocks)
    return [] if own == most else [f"a least plan is liked {most} by {day.prefer}, and that of blocks.csv {own}"]


def wrong_numbers(folder: pathlib.Path, text: str, most: int) -> list[str]:
    """What is wrong with the vehicles and the minutes in the last line of `blocks` on a folder with a script, among all blockings.
    Where more than so many trips run then, they are not tried."""
    day = Day(folder)
    with open(folder / "edits.csv", newline="", encoding="utf-8") as file:
        day.follow(list(csv.reader(file)), {int(number) for number in re.findall("^record ([0-9]+): ok", text, re.MULTILINE)})
    if len(day.trips) > most:
        return []
    *_, vehicles, minutes = map(int, re.findall("[0-9]+", text.splitlines()[-1]))
    least = min(map(day.cost, day.blockings()))
    return [] if (vehicles, minutes) == least else [f"blocks says {vehicles, minutes} after the script, and least are {least}"]


def names_wanted(folder: pathlib.Path, blocks: list[list[str]]) -> list[str]:
    """The names of blocks, each by the names of its trips, in a folder whose desk.toml says how blocks are named."""
    desk = tomllib.loads((folder / "desk.toml").read_text())
    prefix = desk.get("block_prefix", "B")
    if desk.get("block_names", "numbered") == "numbered":
        return [f"{prefix}{number + 1}" for number in range(len(blocks))]
    stated = {row["trip_id"]: row.get("block_id", "") for row in rows_of(folder / "trips.txt")
              if row["service_id"] in desk.get("services", [row["service_id"]])}
    # How many trips of each stated name each block has, the names by the trips of the block.
    trips: list[dict[str, int]] = []
    for block in blocks:
        trips.append({})
        for name in (stated.get(trip, "") for trip in block):
            if name:
                trips[-1][name] = trips[-1].get(name, 0) + 1
    asked = {name: max(range(len(blocks)), key=lambda number: trips[number].get(name, 0)) for of in trips for name in of}
    taken = [max((name for name in of if asked[name] == number), key=of.__getitem__, default=None) for number, of in enumerate(trips)]
    free = (name for name in (f"{prefix}{number}" for number in count(1)) if name not in stated.values())
    return [next(free) if name is None else name for name in taken]


def wrong_names(folder: pathlib.Path) -> list[str]:
    """What is wrong with the names of the blocks in the `blocks.csv` of a folder. Records that follow on one another with one name are
    a block."""
    names: list[str] = []
    blocks: list[list[str]] = []
    for row in rows_of(folder / "blocks.csv"):
        if not names or names[-1] != row["block_id"]:
            names.append(row["block_id"])
            blocks.append([])
        blocks[-1].append(row["trip_id"])
    wanted = names_wanted(folder, blocks)
    return [] if names == wanted else [f"the blocks are named {names}, and not {wanted}"]
