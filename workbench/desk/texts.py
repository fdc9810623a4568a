"""The program's texts as JSON of `json_forms`: one function a command, which refuses what it does not know.

Each form is strict: what is read of a text is all of it, and `written_texts.as_text` writes it again byte for byte, as tests show.
A name has no line end, and in the lines of blocks and of chains no `; `. A text that can be read in two ways is refused.
"""
from __future__ import annotations

import csv
import io
import re
from collections.abc import Callable, Iterator
from functools import lru_cache
from itertools import islice, product
from pathlib import Path
from typing import Any, NoReturn

from desk.errors import DeskError
from desk.records import record_text
from desk.texts_names import Fits, fitting_names, refuse_hidden_ends
from desk.town import Town

Json = dict[str, Any]

NUMBER = "(0|[1-9][0-9]*)"
SIGNED = "(0|-?[1-9][0-9]*)"
ABOVE_0 = "([1-9][0-9]*)"
MINUTE = "((?:[0-9]{2}|[1-9][0-9]{2,}):[0-5][0-9])"

OF_A_TRIP = (r"unknown trip|not live|not cancelled|outside tolerance \([+-][1-9][0-9]*\)|before midnight|trip exists"
             r"|unknown place from|unknown place to|two classes|not forward|too many trips")
OF_NO_TRIP = "not an edit|nothing to undo|nothing to redo|too many shows"
MOST_PREFIX = 32
MOST_LINES = 8192

REFUSED = re.compile(f"record {ABOVE_0}: refused(?:, (.+): ({OF_A_TRIP})|: ({OF_NO_TRIP}))")
OK = re.compile(f"record {ABOVE_0}: ok, fixed {NUMBER}, vehicles {NUMBER}, minutes {NUMBER}")
COST = re.compile(f"fixed {NUMBER}, vehicles {NUMBER}, minutes {NUMBER}")
PLACE = re.compile(f"(.+) max {NUMBER} at {MINUTE}")
JOINED_PLACE = re.compile(f"(.+) max {NUMBER} at {MINUTE}, was {NUMBER}")
STEP = re.compile(f" {MINUTE} {SIGNED}")
TRIP = re.compile(f"(.+) {MINUTE} {MINUTE}")
PRICE = re.compile(f" price (.+) {NUMBER} {NUMBER}")
MISFIT = re.compile(f"block (.+) (?:short by {ABOVE_0}|no way|(forbidden))")
DEADHEAD = re.compile(f"(.+?) {MINUTE} to (.+) {MINUTE}")
PLANNED = re.compile(f"planner {ABOVE_0}: (?:ok|refused(?:, (.+): ({OF_A_TRIP}|held by record {ABOVE_0})"
                     "|: (not an edit|nothing to undo)))")
SHIFT = re.compile(r"([+-])([1-9][0-9]{0,2})")


class Lines:
    """The lines of a text of a command, which are taken one after the other."""

    def __init__(self, command: str, text: str) -> None:
        self.command = command
        # Which names blocks may have; None where they are numbered, and any name where nothing is known of the feed.
        self.fits: Fits | None = lambda name: True
        self.are_numbered = True
        # Whether the feed may have rules of pairs.
        self.may_have_rules = True
        self.lines = text.split("\n")
        self.at = 0
        if self.lines.pop() or not self.lines:
            raise DeskError(f"the text of {command} does not end with the end of a line")

    def refuse(self, why: str = "is of no form that is known") -> NoReturn:
        """Refuses the line that would be taken next."""
        line = repr(self.lines[self.at][:60]) if self.at < len(self.lines) else "the end"
        raise DeskError(f"the text of {self.command}: line {self.at + 1} {why}: {line}")

    def next(self) -> str | None:
        """The line that would be taken next, or None at the end."""
        return self.lines[self.at] if self.at < len(self.lines) else None

    def seen(self, pattern: re.Pattern[str] | str) -> re.Match[str] | None:
        """The next line, which is taken, where it is of this form; else None."""
        line = self.next()
        form = pattern if isinstance(pattern, re.Pattern) else re.compile(pattern)
        found = None if line is None else form.fullmatch(line)
        self.at += found is not None
        return found

    def all(self, pattern: re.Pattern[str]) -> Iterator[re.Match[str]]:
        """The next lines that are of this form, which are taken one by one."""
        while self.at < len(self.lines) and (found := pattern.fullmatch(self.lines[self.at])):
            self.at += 1
            yield found

    def take(self, pattern: re.Pattern[str] | str) -> re.Match[str]:
        """The next line, which is taken and must be of this form."""
        return self.seen(pattern) or self.refuse()

    def record(self, text: str) -> tuple[str, int]:
        """The record that begins with this text, which ends the next line, and how many lines behind that one it takes in."""
        more = 0
        while text.count('"') % 2 and self.at + more + 1 < len(self.lines):
            more += 1
            text += "\n" + self.lines[self.at + more]
        return text, more


def as_json(command: str, text: bytes | str, folder: Path | str | None = None, town: Town | None = None) -> Json:
    """What the text of a command says. Where the folder of the feed is given, a name in it that would hide ends is refused.

    With a town, the folder is a room with the feed of that town.
    """
    try:
        text = text if isinstance(text, str) else text.decode("utf-8")
    except UnicodeDecodeError as error:
        raise DeskError(f"the text of {command} is not UTF-8") from error
    if command not in READERS:
        raise DeskError(f"the text of {command} has no form as JSON")
    lines = Lines(command, text)
    found = lines.seen("feed refused: (.+)")
    if folder is not None and not found:
        town = town or Town(folder)
        refuse_hidden_ends(command, town, Path(folder))
        lines.fits = fitting_names(command, town, Path(folder))
        lines.are_numbered = lines.fits is None
        lines.may_have_rules = town.has("pairs.csv")
    parsed = {"feed_refused": found[1]} if found else READERS[command](lines)
    if lines.next() is not None:
        lines.refuse()
    return parsed


def read_refused(lines: Lines) -> list[Json]:
    """The refused records of the script."""
    refused: list[Json] = []
    for found in lines.all(REFUSED):
        if refused and int(found[1]) <= refused[-1]["record"]:
            lines.at -= 1
            lines.refuse("is not in the order of the records")
        refused.append({"record": int(found[1]), "trip": found[2], "why": found[3] or found[4]})
    return refused


def read_deficits(lines: Lines) -> Json:
    """The text of `deficits`."""
    refused, places = read_refused(lines), read_places(lines, PLACE)
    total = int(lines.take(f"sum {NUMBER}")[1])
    if total != sum(place["max"] for place in places):
        lines.refuse("follows on a sum that is not that of the maxima")
    return {"refused": refused, "places": places, "sum": total}


def read_joined(lines: Lines) -> Json:
    """The text of `joined`."""
    refused, places = read_refused(lines), read_places(lines, JOINED_PLACE)
    found = lines.take(f"sum {NUMBER}, blocks {NUMBER}")
    total, blocks = int(found[1]), int(found[2])
    if total != sum(place["max"] for place in places):
        lines.refuse("follows on a sum that is not that of the maxima")
    if total > blocks or total < blocks and not lines.may_have_rules:
        lines.refuse("follows on a sum that is not the number of the blocks")
    return {"refused": refused, "places": places, "sum": total, "blocks": blocks}


def read_places(lines: Lines, form: re.Pattern[str]) -> list[Json]:
    """The places with their maxima and steps, each named once."""
    places: list[Json] = []
    names: set[str] = set()
    for found in lines.all(form):
        place: Json = {"place": found[1], "max": int(found[2]), "at": found[3]}
        if form is JOINED_PLACE:
            place["was"] = int(found[4])
        place["steps"] = read_steps(lines)
        greatest = max([0, *(step["deficit"] for step in place["steps"])])
        if place["place"] in names or place["max"] != greatest:
            lines.refuse(f"follows on a place that stood before or has another maximum, {place['place']!r}")
        names.add(place["place"])
        places.append(place)
    return places


def read_steps(lines: Lines) -> list[Json]:
    """The steps of a deficit, by their minutes."""
    steps = [{"at": found[1], "deficit": int(found[2])} for found in lines.all(STEP)]
    minutes = [minute_of(step["at"]) for step in steps]
    if minutes != sorted(set(minutes)):
        lines.refuse("follows on steps that are not in the order of their minutes")
    return steps


def read_fixed(lines: Lines) -> Json:
    """The text of `fixed`."""
    refused, found = read_refused(lines), []
    while (line := lines.next()) is not None and not re.fullmatch(f"fixed {NUMBER}", line):
        found.append(line)
        lines.at += 1
    blocks = read_blocks(lines, found, ("out", "in"))
    count = int(lines.take(f"fixed {NUMBER}")[1])
    if count != len(blocks):
        lines.refuse("follows on a number that is not that of the blocks")
    return {"refused": refused, "blocks": blocks, "fixed": count}


def read_plans(lines: Lines) -> Json:
    """The text of `blocks`."""
    records: list[Json] = []
    while (line := lines.next()) is not None and line.startswith("record "):
        if found := lines.seen(OK):
            record = {"record": int(found[1]), "ok": True} | _cost(found, 2)
            if (lines.next() or "").startswith(" "):
                record["plan"] = read_show(lines)
        else:
            found = lines.take(REFUSED)
            record = {"record": int(found[1]), "ok": False, "trip": found[2], "why": found[3] or found[4]}
        records.append(record)
        if record["record"] != len(records):
            lines.refuse("follows on a record out of its order")
    return {"records": records} | _cost(lines.take(COST), 1)


def read_show(lines: Lines) -> Json:
    """The plan that a show puts: its blocks and then its prices."""
    shown = []
    while (line := lines.next()) is not None and line.startswith(" ") and not PRICE.fullmatch(line):
        shown.append(line[1:])
        lines.at += 1
    blocks = read_blocks(lines, shown, ("out", "dh", "in"))
    prices = [{"trip": found[1], "leave": int(found[2]), "enter": int(found[3])} for found in lines.all(PRICE)]
    trips = [trip["trip"] for block in blocks for trip in block["trips"]]
    names = {price["trip"] for price in prices}
    if not len(trips) == len(prices) == len(names) or names != set(trips):
        lines.refuse("follows on prices that are not those of the trips of the blocks")
    return {"blocks": blocks, "prices": prices}


def read_blocks(lines: Lines, shown: list[str], empty: tuple[str, ...]) -> list[Json]:
    """The blocks of these lines, which may be read in one way alone."""
    readings = _numbered_readings(shown, empty) if lines.are_numbered else []
    if not readings and lines.fits:
        readings = _named_readings(shown, lines.fits, empty)
    if len(readings) != 1:
        lines.refuse(f"follows on lines of blocks that can be read in {len(readings)} ways, for the names in them")
    return readings[0]


def _named_readings(shown: list[str], fits: Fits, empty: tuple[str, ...]) -> list[list[Json]]:
    """The readings of these lines of blocks whose names fit: the first two."""
    ways = [[block for name, _ in _splits(line, ": ") if fits(name) and (block := read_block(line, name, empty))] for line in shown]
    return [list(reading) for reading in islice(product(*ways), 2)]


def _numbered_readings(shown: list[str], empty: tuple[str, ...]) -> list[list[Json]]:
    """The readings of these lines of blocks whose names are one prefix with the numbers from 1."""
    if not shown:
        return [[]]
    readings = []
    for at in (found.start() for found in re.finditer("(?=1: )", shown[0])):
        if len(shown[0][:at].encode()) > MOST_PREFIX:
            break
        names = [f"{shown[0][:at]}{number}" for number in range(1, len(shown) + 1)]
        if all(line.startswith(f"{name}: ") for line, name in zip(shown, names)):
            blocks = [read_block(line, name, empty) for line, name in zip(shown, names)]
            if all(blocks):
                readings.append([block for block in blocks if block])
    return readings


@lru_cache(MOST_LINES)
def read_block(line: str, name: str, empty: tuple[str, ...]) -> Json | None:
    """The block of a line behind its name, or None where it is of no form. `empty` is which empty minutes it may have.

    After an edit most lines are as before. Each is read once, and what was read of it is changed by nobody.
    """
    block: Json = {"block": name, "out": 0, "trips": [], "in": 0}
    before = None
    form = re.compile(f"({'|'.join(empty)}) {ABOVE_0}")
    for part in line[len(name) + 2:].split("; "):
        minutes = form.fullmatch(part)
        trip = None if minutes else TRIP.fullmatch(part)
        if block["in"] or not (minutes or trip):
            return None
        if trip:
            deadhead = before if block["trips"] else 0
            block["trips"].append({"trip": trip[1], "deadhead": deadhead or 0, "departs": trip[2], "ends": trip[3]})
            before = None
        elif minutes[1] == "out" and not block["trips"] and not block["out"]:
            block["out"] = int(minutes[2])
        elif minutes[1] == "in" and block["trips"] and before is None:
            block["in"] = int(minutes[2])
        elif minutes[1] == "dh" and block["trips"] and before is None:
            before = int(minutes[2])
        else:
            return None
    return block if block["trips"] and before is None else None


def read_audit(lines: Lines) -> Json:
    """The text of `audit`."""
    refused = read_refused(lines)
    misfits = [read_misfit(lines, found) for found in lines.all(MISFIT)]
    if misfits:
        if int(lines.take(f"no: {ABOVE_0} pairs do not fit")[1]) != len(misfits):
            lines.refuse("follows on a number that is not that of the pairs")
        return {"refused": refused, "verdict": "no", "misfits": misfits}
    stated, least = (lines.take(f"{words}vehicles {NUMBER}, minutes {NUMBER}") for words in ("", "least "))
    read: Json = {"refused": refused, "verdict": "least", "vehicles": int(stated[1]), "minutes": int(stated[2]),
                  "least": {"vehicles": int(least[1]), "minutes": int(least[2])}}
    if not lines.seen("least"):
        found = lines.take(f"above by {ABOVE_0} (vehicles|minutes)")
        read |= {"verdict": "above", "above": {found[2]: int(found[1])}}
        if int(found[1]) != read[found[2]] - read["least"][found[2]]:
            lines.refuse("follows on a number that is not the difference")
    return read


def read_misfit(lines: Lines, found: re.Match[str]) -> Json:
    """A pair that does not fit. Names with `: ` or ` to ` in them may leave several ways to read it, and are refused."""
    ways = [(block, first, second) for block, pair in _splits(found[1], ": ") for first, second in _splits(pair, " to ")]
    if len(ways) != 1:
        lines.at -= 1
        lines.refuse(f"can be read in {len(ways)} ways, for the names in it")
    block, first, second = ways[0]
    return {"block": block, "first": first, "second": second, "short": int(found[2]) if found[2] else None,
            "forbidden": bool(found[3])}


def read_chains(lines: Lines) -> Json:
    """The text of `chains`."""
    refused = read_refused(lines)
    chains: list[Json] = []
    while found := lines.seen(f"chain {ABOVE_0}: (.+), sum {NUMBER}"):
        deadheads = [read_deadhead(lines, part) for part in found[2].split("; ")]
        joins = all(one["from"] == other["to"] for one, other in zip(deadheads, deadheads[1:]))
        if int(found[1]) != len(chains) + 1 or len(deadheads) > 3 or not joins:
            lines.refuse("follows on a chain that does not join, or out of its order")
        chains.append({"chain": int(found[1]), "deadheads": deadheads, "sum": int(found[3])})
    found = lines.take(f"chains {NUMBER}, sum {NUMBER}")
    if int(found[1]) != len(chains):
        lines.refuse("follows on a number that is not that of the chains")
    return {"refused": refused, "chains": chains, "sum": int(found[2])}


def read_deadhead(lines: Lines, part: str) -> Json:
    """A deadhead of a chain. Names with ` HH:MM to ` in them leave several ways to read it, and are refused."""
    found = DEADHEAD.fullmatch(part)
    if not found or re.search(f" {MINUTE} to ", part[found.end(2):]):
        lines.at -= 1
        lines.refuse("can be read in no way or in several, for the names in it")
    return {"from": found[1], "leaves": found[2], "to": found[3], "arrives": found[4]}


def read_shifts(lines: Lines) -> Json:
    """The text of `shifts`."""
    refused = read_refused(lines)
    shifts = []
    while (line := lines.next()) is not None and line.startswith("shift,"):
        record, more = lines.record(line)
        edit = read_edit(record)
        if edit is None:
            lines.refuse()
        lines.at += 1 + more
        shifts.append({"trip": edit["trip"], "shift": edit["shift"]})
    found = lines.take(f"shifts {NUMBER}, sum {NUMBER}")
    if int(found[1]) != len(shifts):
        lines.refuse("follows on a number that is not that of the shifts")
    return {"refused": refused, "shifts": shifts, "sum": int(found[2])}


def read_planners(lines: Lines) -> Json:
    """The text of `planners`."""
    refused, records, standing = read_refused(lines), [], []
    for found in lines.all(PLANNED):
        record: Json = {"record": int(found[1]), "ok": not (found[3] or found[5])}
        if not record["ok"]:
            record |= {"trip": found[2], "why": found[3] or found[5]}
        records.append(record)
        if record["record"] != len(records):
            lines.refuse("follows on a record out of its order")
    while (lines.next() or "").startswith(" "):
        standing.append(read_standing(lines))
    return {"refused": refused, "records": records, "standing": standing} | _cost(lines.take(COST), 1)


def read_standing(lines: Lines) -> Json:
    """An edit that stands, with its planner. The planner's name ends where an edit as it is written begins."""
    ways = []
    for planner, text in _splits((lines.next() or "")[1:], ": "):
        record, more = lines.record(text)
        edit = read_edit(record)
        if edit is not None:
            ways.append((planner, edit, more))
    if len(ways) != 1:
        lines.refuse(f"can be read in {len(ways)} ways, for the names in it")
    planner, edit, more = ways[0]
    lines.at += 1 + more
    return {"planner": planner} | edit


def read_edit(text: str) -> Json | None:
    """The edit of a record as the program writes it, or None where it is none, or written in another way."""
    fields = _fields(text)
    if len(fields) < 2 or not fields[1] or record_text(fields) != text + "\n":
        return None
    edit: Json = {"edit": fields[0], "trip": fields[1]}
    shift = SHIFT.fullmatch(fields[2]) if len(fields) == 3 else None
    if fields[0] in ("cancel", "restore") and len(fields) == 2:
        return edit
    if fields[0] == "shift" and shift:
        return edit | {"shift": int(fields[2])}
    if fields[0] == "extra" and len(fields) == 6 and all(re.fullmatch(MINUTE, field) for field in fields[4:]):
        return edit | {"from": fields[2], "to": fields[3], "departs": fields[4], "arrives": fields[5]}
    return None


def read_check(lines: Lines) -> Json:
    """The text of `check`."""
    refused = read_refused(lines)
    if found := lines.seen(f"yes, vehicles {NUMBER}, minutes {NUMBER}"):
        return {"refused": refused, "verdict": "yes", "vehicles": int(found[1]), "minutes": int(found[2])}
    return {"refused": refused, "verdict": "no", "reason": lines.take("no: (.+)")[1]}


READERS: dict[str, Callable[[Lines], Json]] = {
    "audit": read_audit, "blocks": read_plans, "chains": read_chains, "check": read_check, "deficits": read_deficits,
    "fixed": read_fixed, "joined": read_joined, "planners": read_planners, "shifts": read_shifts}
"""What reads the text of each command."""


def minute_of(text: str) -> int:
    """The minute of `HH:MM` as the program prints it, with hours in two digits or more."""
    hours, minutes = text.split(":")
    return 60 * int(hours) + int(minutes)


def _cost(found: re.Match[str], at: int) -> Json:
    """The three numbers of a timetable, which stand from this group on."""
    return {"fixed": int(found[at]), "vehicles": int(found[at + 1]), "minutes": int(found[at + 2])}


def _splits(text: str, between: str) -> Iterator[tuple[str, str]]:
    """Each pair of texts, neither empty, that are this text with `between` between them."""
    at = text.find(between, 1)
    while at > 0:
        if at + len(between) < len(text):
            yield text[:at], text[at + len(between):]
        at = text.find(between, at + 1)


def _fields(text: str) -> list[str]:
    """The fields of the one record of a text; none where it is no one record."""
    try:
        rows = list(csv.reader(io.StringIO(text, newline="")))
    except csv.Error:
        return []
    return rows[0] if len(rows) == 1 else []
