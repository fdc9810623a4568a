"""A note, and the view of a town that the notes are taken from."""
from __future__ import annotations

from collections.abc import Callable, Iterable
from typing import Any, NamedTuple

from desk.errors import DeskError
from desk.files import read_bytes
from desk.hints.edits import is_edit
from desk.hints.forms import KEYS
from desk.hints.names import Finding
from desk.hints.places import Places
from desk.hints.scripts import edit_of
from desk.hints.trips import TripFile
from desk.limits import MOST_TRIPS
from desk.notes.deadheads import Way, read_ways
from desk.pair_rules import Rule, read_rules
from desk.records import first_records
from desk.rooms import SCRIPTS
from desk.scripts import fields_of
from desk.town import DayTrip, Town


class Note(NamedTuple):
    """What the program accepts in silence: its kind, its file and record, what was found and what to do."""

    kind: str
    file: str
    record: int | None
    found: str
    do: str

    @property
    def text(self) -> str:
        """The note as one line."""
        begin = "feed refused: " if self.kind == "refused" else ""
        place = self.file if self.record is None else f"{self.file} record {self.record}"
        return f"{begin}{place}: {self.found}. {self.do}." if place else f"{self.found}. {self.do}."

    def repeats(self, refused: Note) -> bool:
        """Whether it says of a file, which cannot be read, what a refusal says of it too."""
        return self.kind == "unreadable" and self.file == refused.file and (self.record == refused.record or self.found == refused.found)


class Extra(NamedTuple):
    """An end of an extra trip of a script: the file, the record, the trip and the terminal."""

    file: str
    record: int
    trip: str
    place: str


def note_of(kind: str, file: str, record: int | None, finding: Finding) -> Note:
    """The note of a finding."""
    return Note(kind, file, record, finding.found, finding.do)


class View:
    """A town as the notes see it. What cannot be read is tried once, and is the same DeskError each time that it is asked."""

    def __init__(self, town: Town, ask: Callable[[Town], str | None] = lambda town: None) -> None:
        """The view of a town. `ask` gives the program's refusal of it, or None."""
        self.town = town
        self._ask = ask
        self._found: dict[str, Any] = {}

    def _once(self, name: str, read: Callable[[], Any]) -> Any:
        """What a reading has given, or the error with which it ended. It is done when it is first asked for."""
        if name not in self._found:
            try:
                self._found[name] = read()
            except DeskError as error:
                self._found[name] = error
        if isinstance(self._found[name], DeskError):
            raise self._found[name]
        return self._found[name]

    @property
    def refusal(self) -> str | None:
        """The program's refusal, behind `feed refused: `; None where it takes the feed."""
        return self._once("refusal", lambda: self._ask(self.town))

    @property
    def tolerances(self) -> dict[str, int]:
        """The trips of `tolerances.csv`, each with its record."""
        return self._once("tolerances", lambda: first_records(self.town.path("tolerances.csv"), "trip_id"))

    @property
    def repeats(self) -> dict[str, int]:
        """The trips that the agency's `frequencies.txt` repeats, each with its first record."""
        return self._once("repeats", lambda: first_records(self.town.agency_path("frequencies.txt"), "trip_id"))

    @property
    def pulls(self) -> dict[str, int]:
        """The terminals of `depot.csv`, each with its record."""
        return self._once("pulls", lambda: first_records(self.town.path("depot.csv"), "terminal"))

    @property
    def rules(self) -> list[Rule]:
        """The records of `pairs.csv`."""
        return self._once("rules", lambda: read_rules(self.town))

    @property
    def extras(self) -> list[Extra]:
        """The ends of the extra trips of both scripts."""
        return self._once("extras", lambda: [extra for name in SCRIPTS for extra in read_extras(self.town, name)])

    @property
    def former(self) -> set[str]:
        """The names in `depot.csv` and [layovers] that are no place of any day, as that of a terminal that was renamed."""
        return self._once("former", self._former)

    def lacking(self, listed: Iterable[str]) -> list[str]:
        """The terminals of the day that are not listed."""
        return sorted(self.places.day - set(listed))

    @property
    def trips(self) -> TripFile:
        """What `trips.txt` has, with the trips that other files name."""
        return self._once("trips", lambda: TripFile(self.town, self._asked()))

    @property
    def day(self) -> list[DayTrip]:
        """The trips of the day. More than may be planned are not read."""
        return self._once("day", self._day)

    @property
    def places(self) -> Places:
        """The places of the day and of others."""
        return self._once("places", lambda: Places(self.town, self.day))

    @property
    def ways(self) -> list[Way]:
        """The records of `deadheads.csv`."""
        return self._once("ways", lambda: read_ways(self.town.path("deadheads.csv")))

    def _asked(self) -> list[str]:
        """The trips that other files name, as far as these can be read."""
        asked: list[str] = []
        for names in (lambda: self.tolerances, lambda: self.repeats, lambda: [name for rule in self.rules for name in rule.pair]):
            try:
                asked += names()
            except DeskError:
                continue
        return asked

    def _former(self) -> set[str]:
        """Finds the names. One at which an extra trip runs is a place of its own, where `depot.csv` lacks no terminal."""
        kept = set() if self.lacking(self.pulls) else {extra.place for extra in self.extras}
        return {name for name in (*self.pulls, *self.town.table("layovers"))
                if name not in kept and name not in KEYS and not self.places.is_known(name)}

    def _day(self) -> list[DayTrip]:
        """Reads the trips of the day."""
        if len(self.trips.selected) > MOST_TRIPS:
            raise DeskError("trips.txt: too many trips")
        return self.town.day()


def read_extras(town: Town, script: str) -> list[Extra]:
    """The ends of the extra trips of a script; none where the file is not there."""
    found = []
    for number, fields in enumerate(fields_of(script, read_bytes(town.path(script))) if town.has(script) else (), 1):
        edit = edit_of("planner" if script == "planner_edits.csv" else "record", fields)
        if edit[0] == "extra" and is_edit(edit):
            found += [Extra(script, number, edit[1], town.of_post(place)) for place in edit[2:4]]
    return found
