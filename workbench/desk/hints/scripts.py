"""Why records of a script are refused, and what a planner would write in their place."""
from __future__ import annotations

import re
from collections.abc import Callable, Mapping
from functools import cached_property
from typing import NamedTuple

from desk.errors import DeskError
from desk.files import read_bytes
from desk.hints.edits import is_edit, wrong, wrong_of_planner
from desk.hints.journal import journal_text
from desk.hints.names import shown
from desk.hints.places import Places
from desk.hints.tables import kind_of, save_as
from desk.hints.trips import TripFile
from desk.limits import MOST_TRIPS
from desk.records import open_records
from desk.rooms import SCRIPTS
from desk.scripts import fields_of
from desk.texts import OF_A_TRIP, OF_NO_TRIP
from desk.times import format_minute, format_time, parse_minute
from desk.town import Town

LINE = re.compile(rf"(record|journal|planner) ([0-9]+): refused(?:, (.+))?: ({OF_A_TRIP}|{OF_NO_TRIP}|held by record [0-9]+)")
FILES = {"record": "edits.csv", "journal": "journal.db", "planner": "planner_edits.csv"}

LIMITS = {"too many trips": f"a timetable has {MOST_TRIPS} trips at the most, extra ones too.",
          "too many shows": "a script has 64 shows at the most."}
"""The hint on a record that would be one too many."""

MOST_HINTS = 20
"""How many refused records have a hint at the most."""


class Refused(NamedTuple):
    """A refused record: its script, its number, its trip, and why."""

    source: str
    number: int
    trip: str
    why: str


def refused_in(text: str) -> list[Refused]:
    """The refused records of a text of the program."""
    found = (LINE.fullmatch(line) for line in text.split("\n"))
    return [Refused(line[1], int(line[2]), line[3] or "", line[4]) for line in found if line]


def script_hints(town: Town, text: str, tried: Mapping[str, bytes] | None = None) -> list[str]:
    """A line for each refused record of a text, where something is known of it. `tried` has scripts that do not stand in the town."""
    refused = refused_in(text)
    read = ({FILES[record.source] for record in refused} & set(SCRIPTS)).difference(tried or ())
    foreign = {name: kind for name in read if (kind := kind_of(town.path(name)))}
    if foreign:
        return [f"{name}: {kind}. {save_as(town.path(name))}." for name, kind in sorted(foreign.items())]
    scripts = Scripts(town, refused[:MOST_HINTS], tried or {})
    lines = [f"{FILES[record.source]} record {record.number}: {why}" for record in refused[:MOST_HINTS] if (why := scripts.why(record))]
    more = len(refused) - MOST_HINTS
    return lines + ([f"{more} more records are refused. Mend these first."] if lines and more > 0 else [])


def edit_of(source: str, fields: tuple[str, ...]) -> tuple[str, ...]:
    """The fields of the edit of a record, without the name of a planner."""
    return fields if source != "planner" else (fields[1].strip(" "), *fields[2:]) if len(fields) > 1 else ("",)


class Scripts:
    """The scripts of a town, and what is known of their refused records."""

    def __init__(self, town: Town, refused: list[Refused], tried: Mapping[str, bytes]) -> None:
        self.town = town
        self.tried = tried
        self.asked = [record.trip for record in refused if record.trip]
        self._fields: dict[str, list[tuple[str, ...]]] = {}
        self._reasons: dict[str, Callable[[Refused, tuple[str, ...]], str | None]] = {
            "not an edit": self._not_an_edit, "unknown trip": self._unknown_trip, "not live": self._not_live,
            "outside tolerance": self._outside, "before midnight": self._before_midnight, "trip exists": self._exists,
            "unknown place from": self._unknown_place, "unknown place to": self._unknown_place, "two classes": self._two_classes,
            "not forward": self._not_forward, "held by record": self._held}

    @cached_property
    def trips(self) -> TripFile:
        """The trips of the feed, with those that the records name."""
        return TripFile(self.town, self.asked)

    @cached_property
    def places(self) -> Places:
        """The places of the feed."""
        return Places(self.town, self.town.day())

    def records(self, source: str) -> list[tuple[str, ...]]:
        """The fields of the records of a script."""
        if source not in self._fields:
            path = self.town.path(FILES[source])
            if path.name in self.tried:
                content = self.tried[path.name]
            else:
                content = journal_text(path) if source == "journal" else read_bytes(path)
            self._fields[source] = fields_of(path.name, content)
        return self._fields[source]

    def why(self, record: Refused) -> str | None:
        """Why a record is refused, in sentences; None where nothing is known."""
        reason = self._reasons.get(re.sub(r" \(.*| [0-9]+$", "", record.why))
        try:
            records = self.records(record.source)
            if reason is None:
                return LIMITS.get(record.why)
            if not 0 < record.number <= len(records):
                return None
            fields = records[record.number - 1]
            # A script that has changed since the program read it is another one. Nothing is known of it.
            same = is_edit(edit_of(record.source, fields)) or record.why == "not an edit"
            return reason(record, fields) if same else None
        except DeskError:
            return None

    def _before(self, record: Refused) -> list[tuple[int, tuple[str, ...]]]:
        """The edits of the script before a record with their numbers, the last one first."""
        before = enumerate(self.records(record.source)[:record.number - 1], 1)
        return [(number, edit_of(record.source, fields)) for number, fields in before][::-1]

    def _not_an_edit(self, record: Refused, fields: tuple[str, ...]) -> str | None:
        """Which field is wrong."""
        why = wrong_of_planner(fields) if record.source == "planner" else wrong(fields)
        return f"{why}." if why else None

    def _unknown_trip(self, record: Refused, fields: tuple[str, ...]) -> str | None:
        """Which trip may be meant, or why it is not of the day."""
        found = self.trips.about(record.trip)
        return found.text if found else None

    def _not_live(self, record: Refused, fields: tuple[str, ...]) -> str | None:
        """Which record has cancelled the trip."""
        for number, edit in self._before(record):
            if edit == ("cancel", record.trip):
                return f"record {number} cancels {shown(record.trip)}. Write `restore,{record.trip}` before this record, or take it out."
        return None

    def _outside(self, record: Refused, fields: tuple[str, ...]) -> str | None:
        """By how much the trip may be moved, and who says so."""
        early, late, where = self._tolerance(record.trip)
        return (f"{where} allows {shown(record.trip)} to run {early} minutes early and {late} late, by its published times. "
                "Write a smaller shift, or a larger tolerance in tolerances.csv.")

    def _tolerance(self, trip: str) -> tuple[str, str, str]:
        """By how many minutes a trip may be moved, and which file says so."""
        if self.town.has("tolerances.csv"):
            with open_records(self.town.path("tolerances.csv")) as records:
                name, early, late = (records.column(column) for column in ("trip_id", "early", "late"))
                for number, fields in records:
                    if fields[name] == trip:
                        return fields[early].strip(" "), fields[late].strip(" "), f"tolerances.csv record {number}"
        return str(self.town.settings.get("early", 0)), str(self.town.settings.get("late", 0)), "desk.toml"

    def _before_midnight(self, record: Refused, fields: tuple[str, ...]) -> str | None:
        """When the trip departs as it is published."""
        for trip in self.town.day():
            if trip.trip_id == record.trip and trip.departure is not None:
                return f"{shown(record.trip)} departs at {format_time(trip.departure)} as it is published. It may not depart before 00:00."
        return None

    def _exists(self, record: Refused, fields: tuple[str, ...]) -> str | None:
        """Where the other trip of that name stands."""
        if record.trip in self.trips.selected:
            return f"record {self.trips.selected[record.trip]} of trips.txt is a trip of that name. Choose another name."
        for number, edit in self._before(record):
            if edit[:2] == ("extra", record.trip):
                return f"record {number} adds a trip of that name. Choose another name."
        return None

    def _unknown_place(self, record: Refused, fields: tuple[str, ...]) -> str | None:
        """Which place may be meant."""
        edit = edit_of(record.source, fields)
        found = self.places.about_post(edit[2 if record.why.endswith("from") else 3])
        return found.text if found else None

    def _two_classes(self, record: Refused, fields: tuple[str, ...]) -> str | None:
        """Which two places are of different classes."""
        edit = edit_of(record.source, fields)
        return f"{shown(edit[2])} and {shown(edit[3])} are places of two classes. Write two places of one class."

    def _not_forward(self, record: Refused, fields: tuple[str, ...]) -> str | None:
        """The two times, and how one after midnight is written."""
        departs, arrives = (parse_minute(field) or 0 for field in fields[-2:])
        later = f" After midnight the hours go on: write `{format_minute(arrives + 24 * 60)}`." if arrives < departs else ""
        return f"it arrives at {format_minute(arrives)}, not after {format_minute(departs)}, when it departs.{later}"

    def _held(self, record: Refused, fields: tuple[str, ...]) -> str | None:
        """Whose record is in the way."""
        number = int(record.why.rpartition(" ")[2])
        if not 0 < number < record.number:
            return None
        other = self.records(record.source)[number - 1]
        return f"record {number} of {shown(other[0])} names the same trip. {shown(other[0])} takes it back first."
