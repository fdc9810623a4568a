"""Notes: each mistake that the program accepts in silence has one, and a clean town has none."""
from __future__ import annotations

import os
import sqlite3
import unittest
from contextlib import closing
from pathlib import Path
from unittest import mock

from desk import program
from desk.errors import DeskError
from desk.notes import MOST_OF_A_KIND, notes_of
from desk.notes.note import Note
from desk.town import Town
from tests.feeds import Feed, FolderTest, demonstration, needs_program, table, write_feed, zip_feed

TIMES = "trip_id,arrival_time,departure_time,stop_id,stop_sequence"

CLEAN: Feed = {
    "stops.txt": """stop_id,stop_name,stop_lat,stop_lon,parent_station
stn,Station,52.10,-0.45,
stn_a,"Station, bay A",52.10,-0.45,stn
stn_b,"Station, bay B",52.10,-0.45,stn
har_1,Harbour Gate,52.13,-0.41,
hos_1,Hospital,52.07,-0.48,
zoo_1,Zoo,52.05,-0.48,
""",
    "calendar.txt": """service_id,monday,tuesday,wednesday,thursday,friday,saturday,sunday,start_date,end_date
weekday,1,1,1,1,1,0,0,20260901,20261231
saturday,0,0,0,0,0,1,0,20260901,20261231
""",
    "trips.txt": """route_id,service_id,trip_id,block_id
line_1,weekday,W1,today.1
line_1,weekday,W2,today.1
line_2,weekday,W3,today.2
line_1,saturday,S1,rest.1
""",
    "stop_times.txt": TIMES + """
W1,06:00:00,06:00:00,stn_a,1
W1,06:20:00,06:20:00,har_1,2
W2,06:30:00,06:30:00,har_1,1
W2,06:50:30,06:50:30,stn_b,2
W3,07:00:00,07:00:00,stn_b,1
W3,07:20:00,07:20:00,hos_1,2
S1,09:00:00,09:00:00,stn_a,1
S1,09:30:00,09:30:00,zoo_1,2
""",
    "desk.toml": 'date = "20260907"\nlayover = 5\nblock_prefix = "V"\n\n[layovers]\nStation = 8\nZoo = 3\n',
    "terminals.csv": 'stop_id,terminal\nstn_a,Station\nstn_b,Station\nhar_1,Harbour\nhos_1,"Station, Hospital"\nzoo_1,Zoo\n',
    "deadheads.csv": table("from,to,minutes", [
        ("Station", "Harbour", 12), ("Harbour", "Station", 14), ("Station", "Station, Hospital", 9), ("Station, Hospital", "Station", 9),
        ("Harbour", "Station, Hospital", 20), ("Station, Hospital", "Harbour", 20), ("Depot", "Station", 4), ("Station", "Depot", 4),
        ("Depot", "Harbour", 9), ("Harbour", "Depot", 9)]),
    "depot.csv": 'terminal,pull_out,pull_in\nStation,4,4\nHarbour,9,9\n"Station, Hospital",8,8\nZoo,7,7\n',
    "tolerances.csv": "trip_id,early,late\nW1,0,2\nS1,5,5\n",
    "pairs.csv": "before,after,rule\nW3,W1,never\nW2,S1,never\n",
    "edits.csv": "shift,W1,+1\nshow\n",
}
"""A town that has no notes. A terminal, a layover, a pull and a tolerance are of other days, and the depot is a place on the way."""

SILENT = {
    "a date outside the calendar": ("desk.toml", "20260907", "20270907", "no-trips"),
    "a day on which nothing runs": ("desk.toml", "20260907", "20260906", "no-trips"),
    "a service in capitals": ("desk.toml", 'date = "20260907"', 'services = ["Weekday"]', "no-such-service"),
    "a layover of a misspelt terminal": ("desk.toml", "Station = 8", "Staton = 8", "no-such-key"),
    "a tolerance below the layovers": ("desk.toml", "Station = 8", "late = 3", "key-below-table"),
    "a misspelt name of a deadhead": ("deadheads.csv", "Station,Harbour,12", "Station,Harbur,12", "no-such-place"),
    "a platform in the deadheads": ("deadheads.csv", "Depot,Station,4", "Depot,stn_a,4", "no-such-place"),
    "a space in a name of the deadheads": ("deadheads.csv", "Station,Harbour,12", "Station, Harbour,12", "no-such-place"),
    "a space in a quoted name": ("deadheads.csv", 'Station,"Station, Hospital"', 'Station,"Station,Hospital"', "no-such-place"),
    "a misspelt name in the depot": ("depot.csv", "Harbour", "Harbuor", "no-such-place"),
    "a platform in the depot": ("depot.csv", "Station,4", "stn_b,4", "no-such-place"),
    "a terminal that the depot forgets": ("depot.csv", "Harbour,9,9\n", "", "no-depot-record"),
    "a misspelt trip in the pairs": ("pairs.csv", "W2,S1", "W22,S1", "no-such-trip"),
    "a kept pair in the wrong order": ("pairs.csv", "W3,W1,never", "W3,W1,keep", "kept-pair"),
    "no blocks of today": ("trips.txt", ",block_id", ",other", "no-block-id"),
    "blocks of other days": ("trips.txt", "rest.1", "V1", "blocks-of-other-days"),
}
"""Mistakes that the program accepts: the file, what stands in it, what is written in its place, and the kind of the note."""


def silent_feed(name: str) -> Feed:
    """The clean town with a mistake."""
    file, right, wrong, _ = SILENT[name]
    if right not in CLEAN[file]:
        raise AssertionError(f"{right} is not in {file}")
    return CLEAN | {file: CLEAN[file].replace(right, wrong, 1)}


@needs_program
class NotesTest(FolderTest):
    """A test of the notes of a town."""

    def notes(self, feed: Feed | None = None, **changed: str) -> list[Note]:
        """The notes of a feed, or of the clean town, where other texts stand in some files."""
        names = {name: name.replace("__", ".") for name in changed}
        write_feed(self.room / "town", (CLEAN if feed is None else feed) | {names[name]: text for name, text in changed.items()})
        return notes_of(Town(self.room / "town"))

    def only(self, kind: str, notes: list[Note]) -> Note:
        """The one note of a kind."""
        of_kind = [note for note in notes if note.kind == kind]
        self.assertEqual(len(of_kind), 1, notes)
        return of_kind[0]

    def keep(self, *lines: str) -> None:
        """Makes the journal of the town with these lines."""
        with closing(sqlite3.connect(self.room / "town" / "journal.db")) as database, database:
            database.execute("CREATE TABLE journal(seq INTEGER PRIMARY KEY, line TEXT NOT NULL)")
            database.executemany("INSERT INTO journal(line) VALUES (?)", [(line,) for line in lines])


class TestSilentMistakes(NotesTest):
    """What the program accepts in silence."""

    def test_a_clean_town_has_no_notes(self) -> None:
        self.assertEqual(self.notes(), [])

    def test_each_mistake_has_a_note(self) -> None:
        for name, (file, _, _, kind) in SILENT.items():
            with self.subTest(name):
                note = self.only(kind, self.notes(silent_feed(name)))
                self.assertEqual(note.file, file)
                self.assertTrue(note.found and note.do)

    @needs_program
    def test_the_program_accepts_each_of_them(self) -> None:
        for name in SILENT:
            with self.subTest(name):
                feed = {file: text for file, text in silent_feed(name).items() if file != "edits.csv"}
                outcome = program.run(["blocks", write_feed(self.room / "town", feed)])
                self.assertEqual((outcome.status, outcome.errors), (0, b""))

    @needs_program
    def test_the_program_accepts_the_clean_town(self) -> None:
        outcome = program.run(["check", write_feed(self.room / "town", CLEAN)])
        self.assertNotEqual(outcome.status, 3, outcome.text)


class TestDays(NotesTest):
    """Notes on the day and its services."""

    @needs_program
    def test_a_wrong_year_is_told_below_the_answers_of_the_program(self) -> None:
        town = write_feed(self.room / "town", silent_feed("a date outside the calendar") | {"edits.csv": ""})
        for command in ("blocks", "check", "fixed", "deficits", "joined", "audit"):
            with self.subTest(command):
                status, _, errors = self.desk(command, town)
                self.assertEqual(status, 0)
                self.assertRegex(errors, r"^desk: desk.toml: no trip is selected on 20270907, a Tuesday; the calendars go from 20260901 to "
                                 r"20261231\. Write another date\. Trips run on 20261231 \(Thursday, 3 trips\)\.\n$")

    def toml(self, text: str) -> list[Note]:
        """The notes of the clean town with this `desk.toml`."""
        return self.notes(desk__toml=text)

    def test_dates_near_to_one_without_trips_are_told(self) -> None:
        note = self.only("no-trips", self.toml('date = "20260906"\n'))
        self.assertIn("20260905 (Saturday, 1 trips)", note.do)
        self.assertIn("20260907 (Monday, 3 trips)", note.do)
        self.assertIn("20260906, a Sunday", note.found)

    def test_the_range_of_the_calendars_is_told(self) -> None:
        note = self.only("no-trips", self.toml('date = "20300101"\n'))
        self.assertIn("from 20260901 to 20261231", note.found)
        self.assertIn("20261231 (Thursday, 3 trips)", note.do)

    def test_a_day_without_trips_makes_no_other_notes(self) -> None:
        self.assertEqual({note.kind for note in self.toml('date = "20260906"\n')}, {"no-trips"})

    def test_no_calendar_covers_the_time(self) -> None:
        calendar = CLEAN["calendar.txt"].replace("1,1,1,1,1", "0,0,0,0,0").replace("1,0,202", "0,0,202")
        self.assertIn("Ask the agency", self.only("no-trips", self.notes(calendar__txt=calendar)).do)

    def test_a_date_without_calendars(self) -> None:
        note = self.only("no-trips", self.notes({name: text for name, text in CLEAN.items() if name != "calendar.txt"}))
        self.assertIn("Copy them", note.do)

    def test_a_feed_without_trips(self) -> None:
        self.assertIn("no trip", self.only("no-trips", self.notes(trips__txt="service_id,trip_id\n")).found)

    def test_a_service_of_other_capitals_is_told_with_the_right_one(self) -> None:
        note = self.only("no-such-service", self.toml('services = ["Weekday", "saturday"]\n'))
        self.assertIn('Write "weekday"', note.do)

    def test_a_service_that_is_unlike_all_is_told_with_those_there_are(self) -> None:
        self.assertIn('"weekday", "saturday"', self.only("no-such-service", self.toml('services = ["x", "weekday"]\n')).do)

    def test_an_empty_list_of_services(self) -> None:
        self.assertIn("empty", self.only("no-such-service", self.toml("services = []\n")).found)

    def test_a_service_that_does_not_run_that_day(self) -> None:
        note = self.only("no-service-that-day", self.toml('date = "20260907"\nservices = ["weekday", "saturday"]\nblock_prefix = "V"\n'))
        self.assertIn('"saturday" does not run on 20260907, a Monday', note.found)

    def test_all_days_at_once(self) -> None:
        note = self.only("all-days", self.toml("layover = 5\n"))
        self.assertIn("2 services", note.found)
        self.assertIn('date = "20260901"', note.do)

    def test_one_service_needs_no_date(self) -> None:
        trips = CLEAN["trips.txt"].replace("line_1,saturday,S1,rest.1\n", "")
        self.assertNotIn("all-days", {note.kind for note in self.notes(trips__txt=trips, desk__toml='block_prefix = "V"\n')})


class TestSettings(NotesTest):
    """Notes on the tables of `desk.toml`."""

    def keys(self, lines: str, kind: str = "no-such-key") -> Note:
        """The note of a table behind the date."""
        return self.only(kind, self.notes(desk__toml='date = "20260907"\nlayover = 5\nblock_prefix = "V"\n' + lines))

    def test_the_nearest_terminal_is_told(self) -> None:
        self.assertIn('Write "Station"', self.keys("[layovers]\nStaton = 8\n").do)

    def test_a_platform_in_the_layovers(self) -> None:
        self.assertIn('"stn_a" is a platform of the terminal "Station"', self.keys("[layovers]\nstn_a = 8\n").found)

    def test_a_station_in_the_layovers(self) -> None:
        self.assertIn('whose platforms are the terminal "Station"', self.keys("[layovers]\nstn = 8\n").found)

    def test_the_name_of_a_stop_in_words(self) -> None:
        self.assertIn('Write "Harbour"', self.keys('[layovers]\n"Harbour Gate" = 8\n').do)

    def test_a_name_that_is_unlike_all(self) -> None:
        self.assertIn('"Qq" is no place of the feed', self.keys("[layovers]\nQq = 8\n").found)

    def test_each_key_of_the_top_is_told_below_a_table(self) -> None:
        for key in ("late", "early", "layover", "date"):
            with self.subTest(key):
                note = self.keys(f"[layovers]\n{key} = 8\n", "key-below-table")
                self.assertIn(f"`{key}` stands below [layovers]", note.found)
                self.assertIn("above [layovers]", note.do)

    def test_a_prefix_below_the_classes(self) -> None:
        note = self.keys('[classes]\nblock_prefix = "X"\n', "key-below-table")
        self.assertIn("the class of a route", note.found)

    def test_a_class_of_no_route(self) -> None:
        self.assertIn('Write "line_1"', self.keys('[classes]\nLine_1 = "big"\n').do)
        self.assertIn("is no route", self.keys('[classes]\nqq = "big"\n').found)

    def test_a_class_of_a_route_has_no_note(self) -> None:
        settings = 'date = "20260907"\nblock_prefix = "V"\n[classes]\nline_1 = "big"\n[layovers]\nHarbour = 2\n'
        self.assertEqual(self.notes(desk__toml=settings), [])

    def test_a_terminal_that_is_named_as_a_key(self) -> None:
        terminals = CLEAN["terminals.csv"].replace("Harbour", "late")
        ways, depot = (CLEAN[name].replace("Harbour", "late") for name in ("deadheads.csv", "depot.csv"))
        toml = CLEAN["desk.toml"] + "late = 3\n"
        self.assertEqual(self.notes(terminals__csv=terminals, deadheads__csv=ways, depot__csv=depot, desk__toml=toml), [])


class TestPairs(NotesTest):
    """Notes on rules of pairs, and on the trips that the agency links."""

    def pairs(self, *records: str, kind: str = "kept-pair", **changed: str) -> Note:
        """The one note of a kind where the pairs have these records."""
        return self.only(kind, self.notes(pairs__csv="".join(f"{line}\n" for line in ("before,after,rule", *records)), **changed))

    def test_what_a_name_of_no_trip_does(self) -> None:
        note = self.pairs("W1,W9,keep", kind="no-such-trip")
        self.assertEqual((note.record, "no trip comes straight after \"W1\"" in note.found), (1, True), note.found)
        self.assertIn("no trip comes straight before \"W2\"", self.pairs("W8,W2,keep", kind="no-such-trip").found)
        self.assertIn("the record has no effect", self.pairs("W1,w2,never", kind="no-such-trip").found)

    def test_why_a_kept_pair_does_not_fit(self) -> None:
        late = CLEAN["desk.toml"].replace("layover = 5", "layover = 20")
        self.assertEqual(self.pairs("W1,W2,keep", desk__toml=late).found,
                         '"W1" and "W2" are kept together, and a vehicle comes 11 minutes too late')
        self.assertIn("no way leads", self.pairs("W1,W3,keep", deadheads__csv="from,to,minutes\n").found)
        self.assertIn('"W2" does not run, so no trip comes straight after "W1"', self.pairs("W1,W2,keep", edits__csv="cancel,W2\n").found)
        self.assertIn('"S1" does not run, so no trip comes straight before "W3"', self.pairs("S1,W3,keep").found)

    def test_kept_pairs_that_fit_have_no_note(self) -> None:
        self.assertEqual(self.notes(pairs__csv="before,after,rule\nW1,W2,keep\nW2,W3,keep\n"), [])

    def test_a_row_of_kept_pairs_that_all_miss(self) -> None:
        town = self.notes(pairs__csv="before,after,rule\nW1,W2,keep\nW2,W3,keep\n", desk__toml='date = "20260907"\nlayover = 60\n')
        self.assertEqual([note.record for note in town if note.kind == "kept-pair" and "too late" in note.found], [1, 2])

    def test_an_extra_trip_of_a_rule(self) -> None:
        notes = self.notes(pairs__csv="before,after,rule\nW1,X1,keep\n", edits__csv="extra,X1,Harbour,Station,06:40,06:50\n")
        self.assertEqual([note for note in notes if note.file == "pairs.csv"], [])

    def test_blocks_of_today_that_part_linked_trips(self) -> None:
        linked = "transfer_type,from_trip_id,to_trip_id\n4,W1,W2\n4,W2,W3\n5,W3,W1\n4,W3,S1\n4,W1,\n"
        note = self.only("linked-trips", self.notes(CLEAN | {"transfers.txt": linked}))
        self.assertEqual((note.file, note.record), ("transfers.txt", 2))
        self.assertIn('"W3" is linked to "W2" by transfer_type 4, and the blocks of trips.txt have it in another block', note.found)
        self.assertIn("`W2,W3,keep`", note.do)


class TestFiles(NotesTest):
    """Notes on names of files."""

    def test_files_with_names_like_those_that_are_read(self) -> None:
        for wrong, right in (("terminal.csv", "terminals.csv"), ("deadhead.csv", "deadheads.csv"), ("desk.toml.txt", "desk.toml"),
                             ("Depot.csv", "depot.csv"), ("deadheads.xlsx", "deadheads.csv"), ("tolerances (1).csv", "tolerances.csv"),
                             ("dead heads.csv", "deadheads.csv"), ("calender.txt", "calendar.txt"), ("edits.txt", "edits.csv")):
            with self.subTest(wrong):
                folder = write_feed(self.room / wrong, CLEAN)
                (folder / right).rename(folder / wrong)
                note = self.only("file-name", notes_of(Town(folder)))
                self.assertEqual(note.file, wrong)
                self.assertIn(right, note.do)

    def test_both_names_stand_in_the_folder(self) -> None:
        note = self.only("file-name", self.notes(CLEAN | {"deadhead.csv": "from,to,minutes\n"}))
        self.assertIn("deadheads.csv is, which stands there too", note.found)

    def test_copies_and_files_of_the_agency_have_no_note(self) -> None:
        others = ["desk.toml.bak", "edits_old.csv", "deadheads (1).csv", "edits2.csv", "edits-20260907.csv", "Copy of depot.csv",
                  "trips.txt~", "stops.txt", "routes.txt", "shapes.txt", "trips_blocks.txt", "stop_times_blocks.txt", "blocks.csv",
                  "prices.csv", "boards.csv", "notes.txt", "desk.html", ".desk.toml.swp", "deadheads.xlsx", "before-keep-edits.csv",
                  "tolerances.py"]
        self.assertEqual(self.notes(CLEAN | dict.fromkeys(others, "stop_id,stop_name\n")), [])


class TestPlaces(NotesTest):
    """Notes on names in `deadheads.csv`, `depot.csv` and `terminals.csv`."""

    def test_the_record_and_the_terminal_are_told(self) -> None:
        note = self.only("no-such-place", self.notes(silent_feed("a platform in the deadheads")))
        self.assertEqual(note.record, 7)
        self.assertIn('"stn_a" is a platform of the terminal "Station"', note.found)

    def test_spaces_and_capitals_are_told(self) -> None:
        for name, words in ((" Harbour", "by spaces"), ("harbour", "by capitals"), ("HAR BOUR", "by spaces and capitals")):
            with self.subTest(name):
                ways = CLEAN["deadheads.csv"].replace("Station,Harbour,12", f"Station,{name},12")
                self.assertIn(words, self.only("no-such-place", self.notes(deadheads__csv=ways)).found)

    def test_a_name_of_several_records_is_told_once(self) -> None:
        ways = CLEAN["deadheads.csv"] + "Qq,Station,3\nStation,Qq,3\n"
        note = self.only("no-such-place", self.notes(deadheads__csv=ways))
        self.assertEqual(note.record, 11)
        self.assertIn("2 records have no effect", note.found)

    def test_a_misspelt_name_that_stands_for_its_terminal_everywhere(self) -> None:
        note = self.only("no-such-place", self.notes(deadheads__csv=CLEAN["deadheads.csv"].replace("Harbour", "Harbuor")))
        self.assertIn("takes it for another place", note.found)

    def test_a_terminal_of_other_days_has_no_note(self) -> None:
        ways = CLEAN["deadheads.csv"] + "Zoo,Station,30\nStation,Zoo,30\n"
        self.assertEqual(self.notes(deadheads__csv=ways), [])

    def test_a_name_that_the_depot_alone_has(self) -> None:
        note = self.only("no-such-place", self.notes(depot__csv=CLEAN["depot.csv"] + "Nowhere,1,1\n"))
        self.assertEqual((note.file, note.record), ("depot.csv", 5))

    def test_a_renamed_terminal_is_noted_in_every_file_that_has_the_old_name(self) -> None:
        """A planner writes "Port" in place of "Harbour" in terminals.csv, and leaves the other files."""
        toml = CLEAN["desk.toml"] + "Harbour = 2\n"
        script = "extra,E1,Harbour,Station,10:00,10:30\n"
        ways = CLEAN["deadheads.csv"].replace('Harbour,"Station', 'Depot,"Station')
        notes = self.notes(terminals__csv=CLEAN["terminals.csv"].replace("Harbour", "Port"), desk__toml=toml, edits__csv=script,
                           planner_edits__csv=f"ann,{script}", deadheads__csv=ways)
        found = {note.file: note for note in notes if note.kind in ("no-such-place", "no-such-key")}
        self.assertEqual(set(found), {"deadheads.csv", "depot.csv", "desk.toml", "edits.csv", "planner_edits.csv"})
        for note in found.values():
            self.assertIn('"Harbour" is no place of the feed', note.found)
        self.assertEqual([found[name].do for name in ("deadheads.csv", "depot.csv")], ['Write "Port", if that is its name now'] * 2)
        self.assertEqual((found["depot.csv"].record, found["edits.csv"].record), (2, 1))

    def test_a_renamed_terminal_without_a_depot(self) -> None:
        feed = {name: text for name, text in CLEAN.items() if name not in ("depot.csv", "edits.csv")}
        feed["terminals.csv"] = feed["terminals.csv"].replace("Harbour", "Port")
        feed["deadheads.csv"] = "".join(line for line in feed["deadheads.csv"].splitlines(True) if "Depot" not in line)
        note = self.only("no-such-place", self.notes(feed))
        self.assertEqual((note.record, note.do), (1, 'Write "Port", if that is its name now'))

    def test_a_place_of_extra_trips_alone_has_no_note(self) -> None:
        feed = CLEAN | {"edits.csv": "extra,E1,Depot,Station,10:00,10:30\n", "depot.csv": CLEAN["depot.csv"] + "Depot,0,0\n"}
        self.assertEqual(self.notes(feed), [])

    def test_two_spellings_of_a_terminal(self) -> None:
        note = self.only("two-spellings", self.notes(terminals__csv=CLEAN["terminals.csv"].replace("stn_b,Station", "stn_b,station")))
        self.assertEqual(note.record, 2)

    def test_a_stop_that_is_misspelt(self) -> None:
        note = self.only("no-such-stop", self.notes(terminals__csv=CLEAN["terminals.csv"].replace("zoo_1", "Zoo_1")))
        self.assertIn('"zoo_1"', note.do)


@needs_program
class TestDepot(NotesTest):
    """Terminals of the day that `depot.csv` forgets, which the program takes for a depot next door."""

    def depot(self, *gone: str) -> str:
        """The `depot.csv` of the clean town without the records of some terminals."""
        return "".join(line for line in CLEAN["depot.csv"].splitlines(True) if not line.startswith(gone))

    def test_a_record_that_is_taken_out_is_told_with_its_pulls(self) -> None:
        """One vehicle makes the three trips: out to the station, and home from the hospital."""
        self.assertEqual(self.notes(depot__csv=self.depot("Zoo")), [], "no trip of the day is there")
        notes = self.notes(depot__csv=self.depot('"Station', "Harbour"))
        found = [(note.file, note.record, note.found) for note in notes]
        self.assertEqual(found, [
            ("depot.csv", None, 'no record of "Harbour", so the ways out and home take 0 minutes: 0 pull-outs end and 0 pull-ins begin there'),
            ("depot.csv", None, 'no record of "Station, Hospital", so the ways out and home take 0 minutes: '
                                "0 pull-outs end and 1 pull-in begins there")])
        self.assertEqual({note.kind for note in notes}, {"no-depot-record"})

    def test_vehicles_of_classes_are_added_up(self) -> None:
        toml = CLEAN["desk.toml"] + '[classes]\nline_1 = "big"\n'
        note = self.only("no-depot-record", self.notes(desk__toml=toml, depot__csv=self.depot("Station,")))
        self.assertIn("2 pull-outs end and 1 pull-in begins there", note.found)

    def test_an_extra_trip_ends_where_no_other_does(self) -> None:
        note = self.only("no-depot-record", self.notes(edits__csv="extra,E1,Station,Depot,20:00,20:30\n"))
        self.assertIn('no record of "Depot", so the ways out and home take 0 minutes: 0 pull-outs end and 1 pull-in begins there', note.found)

    def test_a_town_without_a_depot_has_no_such_note(self) -> None:
        self.assertEqual(self.notes({name: text for name, text in CLEAN.items() if name != "depot.csv"}), [])

    def test_blocks_says_so_below_its_answer(self) -> None:
        town = write_feed(self.room / "town", CLEAN | {"depot.csv": self.depot("Station,")})
        status, text, errors = self.desk("blocks", town)
        self.assertEqual((status, text.splitlines()[-1]), (0, "fixed 1, vehicles 1, minutes 8"))
        self.assertEqual(errors, 'desk: depot.csv has no record of "Station", so the ways out and home take 0 minutes: 1 pull-out ends and '
                                 "0 pull-ins begin there. Write one, if the depot does not lie there.\n")
        write_feed(town, {"depot.csv": CLEAN["depot.csv"]})
        self.assertEqual(self.desk("blocks", town)[2], "")


class TestWays(NotesTest):
    """Notes on the ways of `deadheads.csv`."""

    def ways(self, *records: tuple[str, str, int]) -> list[Note]:
        """The notes of the clean town with these ways and no depot."""
        return self.notes(deadheads__csv=table("from,to,minutes", records))

    def test_a_terminal_that_no_deadhead_reaches(self) -> None:
        notes = self.ways(("Station", "Harbour", 12), ("Harbour", "Station", 12))
        self.assertIn('to or away from "Station, Hospital"', self.only("no-way", notes).found)

    def test_a_terminal_that_no_deadhead_leaves(self) -> None:
        notes = self.ways(("Station", "Harbour", 12), ("Harbour", "Station", 12), ("Harbour", "Station, Hospital", 9))
        self.assertIn('leads away from "Station, Hospital"', self.only("no-way", notes).found)
        self.assertIn('from "Station, Hospital" to "Harbour"', self.only("one-way", notes).do)
        self.assertEqual(self.only("one-way", notes).record, 3)

    def test_a_town_without_deadheads_has_no_such_note(self) -> None:
        self.assertEqual(self.notes({name: text for name, text in CLEAN.items() if name != "deadheads.csv"}), [])

    def test_a_way_that_takes_much_longer_than_over_others(self) -> None:
        ways = CLEAN["deadheads.csv"].replace('Harbour,"Station, Hospital",20', 'Harbour,"Station, Hospital",200')
        note = self.only("slow-way", self.notes(deadheads__csv=ways))
        self.assertEqual(note.record, 5)
        self.assertIn('by way of "Station" it takes 22', note.found)

    def test_a_way_that_takes_much_longer_than_the_way_back(self) -> None:
        notes = self.ways(("Station", "Harbour", 12), ("Harbour", "Station", 120))
        self.assertIn("the way back takes 12, record 1", self.only("slow-way", notes).found)

    def test_a_way_that_is_a_little_longer_has_no_note(self) -> None:
        notes = self.ways(("Station", "Harbour", 12), ("Harbour", "Station", 15))
        self.assertNotIn("slow-way", {note.kind for note in notes})


class TestTrips(NotesTest):
    """Notes on repeated trips, blocks, tolerances and whole minutes."""

    def test_repeated_trips_are_told(self) -> None:
        feed = demonstration() | {"desk.toml": 'date = "20070606"\n'}
        notes = [note for note in self.notes(feed) if note.kind == "repeated-trip"]
        self.assertEqual([(note.file, note.record) for note in notes], [("frequencies.txt", number) for number in (1, 2, 3)])
        self.assertIn('"STBA" runs every 1800 seconds from 6:00:00 to 22:00:00', notes[0].found)

    def test_a_repeated_trip_of_another_day_has_no_note(self) -> None:
        self.assertEqual(self.notes(CLEAN | {"frequencies.txt": "trip_id,start_time,end_time,headway_secs\nS1,6:00:00,8:00:00,600\n"}), [])

    def test_repeated_trips_that_were_written_out_have_no_note(self) -> None:
        self.desk("new", zip_feed(self.room / "demo.zip", demonstration()), self.room / "town")
        notes = notes_of(Town(self.room / "town"))
        self.assertNotIn("repeated-trip", {note.kind for note in notes})

    def test_some_trips_have_no_block_of_today(self) -> None:
        note = self.only("no-block-id", self.notes(trips__txt=CLEAN["trips.txt"].replace("W2,today.1", "W2,")))
        self.assertEqual(note.record, 2)
        self.assertIn("1 of 3 trips", note.found)

    def test_a_free_prefix_is_told(self) -> None:
        note = self.only("blocks-of-other-days", self.notes(trips__txt=CLEAN["trips.txt"].replace("rest.1", "B2"),
                                                            desk__toml='date = "20260907"\n'))
        self.assertEqual(note.record, 4)
        self.assertIn('block_prefix = "V"', note.do)

    def test_a_block_that_write_cannot_name_has_no_note(self) -> None:
        for block in ("B4", "B02", "B", "b2", "B2x"):
            with self.subTest(block):
                self.assertEqual(self.notes(trips__txt=CLEAN["trips.txt"].replace("rest.1", block), desk__toml='date = "20260907"\n'), [])

    def test_a_tolerance_of_no_trip(self) -> None:
        for name, words in ((" W2", "by spaces"), ("w2", "by capitals"), ("Qqqqq", "is no trip")):
            with self.subTest(name):
                note = self.only("no-such-trip", self.notes(tolerances__csv=f"trip_id,early,late\n{name},1,1\n"))
                self.assertIn(words, note.found)
                self.assertEqual(note.record, 1)

    def test_trips_that_miss_each_other_by_less_than_a_minute(self) -> None:
        times = CLEAN["stop_times.txt"].replace("06:50:30", "06:50:10").replace("07:00:00", "06:58:40")
        note = self.only("whole-minutes", self.notes(stop_times__txt=times))
        self.assertIn('"W3" departs at 06:58:40 and "W2" arrives there at 06:50:10 with a layover of 8 minutes', note.found)
        self.assertIn("shift,W3,+1", note.do)

    def test_many_of_them_are_one_line_unless_asked_for(self) -> None:
        times = CLEAN["stop_times.txt"].replace("06:50:30", "06:50:10").replace("07:00:00", "06:58:40").replace("06:20:00", "06:24:30")
        write_feed(self.room / "town", CLEAN | {"stop_times.txt": times.replace("06:30:00,06:30:00", "06:29:40,06:29:40")})
        self.assertEqual(self.desk("notes", self.room / "town")[1],
                         "stop_times.txt: 2 trips depart where other vehicles are free by the second, and by whole minutes are one minute too "
                         f"late. `./desk notes {self.room / 'town'} --minutes` lists them.\nnotes 1\n")
        text = self.desk("notes", self.room / "town", "--minutes")[1]
        self.assertEqual((text.count("in whole minutes that is one minute too late"), text.splitlines()[-1]), (2, "notes 2"))

    def test_trips_that_fit_or_miss_by_more_have_no_such_note(self) -> None:
        for arrives, departs in (("06:50:00", "06:58:40"), ("06:50:10", "06:59:00"), ("06:50:10", "06:58:05"), ("06:50:50", "06:58:40")):
            with self.subTest(f"{arrives} {departs}"):
                times = CLEAN["stop_times.txt"].replace("06:50:30", arrives).replace("07:00:00", departs)
                self.assertEqual(self.notes(stop_times__txt=times), [])


class TestRefused(NotesTest):
    """The program's refusal is the first note, and no bad trip hides behind another."""

    ROWS = {
        "still": ("06:00:00,06:00:00,stn_a,1", "06:00:00,06:00:00,har_1,2"), "alone": ("06:00:00,06:00:00,stn_a,1",),
        "untimed": ("06:00:00,06:00:00,stn_a,1", ",,har_1,2"), "twice": ("06:00:00,06:00:00,stn_a,1", "07:00:00,07:00:00,har_1,1"),
        "stopless": ("06:00:00,06:00:00,,1", "07:00:00,07:00:00,har_1,2"), "short": ("06:00,06:00:00,stn_a,1", "07:00:00,07:00:00,har_1,2")}

    def feed(self, *names: str, service: str = "weekday") -> Feed:
        """The clean town with some of these trips."""
        trips = "".join(f"line_1,{service},{name},x.{name}\n" for name in names)
        rows = "".join(f"{name},{row}\n" for name in names for row in self.ROWS[name])
        return CLEAN | {"trips.txt": CLEAN["trips.txt"] + trips, "stop_times.txt": CLEAN["stop_times.txt"] + rows}

    def test_all_of_them_are_told_once(self) -> None:
        """The program refuses the row of the last trip first, since it judges the rows before whole trips."""
        notes = self.notes(self.feed("still", "alone", "untimed", "twice", "short", "stopless"))
        self.assertEqual((notes[0].kind, notes[0].file, notes[0].record, notes[0].found), ("refused", "stop_times.txt", 16, "bad arrival_time"))
        others = [note for note in notes if note.kind == "refused-trip"]
        self.assertEqual([note.found.split('"')[1] for note in others], ["still", "alone", "untimed", "twice", "stopless"])
        self.assertIn("record 18 of stop_times.txt has no stop_id", others[-1].found)

    def test_a_row_that_the_workbench_reads_first_is_told_once(self) -> None:
        """The program refuses record 9 for its stop, and the workbench cannot read the time of record 11."""
        notes = self.notes(self.feed("stopless", "short"))
        self.assertEqual([(note.kind, note.record) for note in notes], [("refused", 9), ("refused-trip", 11)])

    def test_one_that_the_program_names_is_told_once(self) -> None:
        notes = self.notes(self.feed("still", "alone"))
        self.assertEqual([note.text for note in notes[:1]], [
            'feed refused: stop_times.txt: trip still not forward. stop_times.txt: trip "still" departs at "06:00:00", record 9, and arrives at '
            '"06:00:00", record 10. After midnight the hours go on, as 24:05:00.'])
        self.assertIn('trip "alone" of service "weekday" is refused: it has one row', self.only("refused-trip", notes).found)

    def test_a_trip_of_another_day_has_no_note(self) -> None:
        self.assertEqual(self.notes(self.feed("still", service="saturday")), [])
        feed = self.feed()
        feed["trips.txt"] += "line_1,saturday,S2,Zoo, North\nline_1,saturday,S3,Zoo, South\n"
        notes = self.notes(feed)
        self.assertEqual((notes[0].found, notes[0].record), ("too many fields", 5))
        self.assertIn('trip "S3" of service "saturday" is refused: record 6 of trips.txt has 5 fields', self.only("refused-trip", notes).found)

    def test_a_program_that_cannot_be_run_is_told(self) -> None:
        with mock.patch.dict(os.environ, {"BLOCKDESK": str(self.room / "nothing")}):
            self.assertIn("nothing cannot be run", self.only("unreadable", self.notes()).text)


class TestScripts(NotesTest):
    """Notes on `edits.csv` and the journal."""

    def script(self, script: str, *kept: str) -> list[Note]:
        """The notes of the clean town with this script and these lines in its journal."""
        write_feed(self.room / "town", CLEAN | {"edits.csv": script})
        self.keep(*kept)
        return notes_of(Town(self.room / "town"))

    def test_a_script_that_begins_with_the_journal(self) -> None:
        notes = self.script("shift,W1,1\ncancel,W2\ncancel,W3\n", "shift,W1,+1", "cancel,W2")
        self.assertIn("records 1 to 2", self.only("kept-twice", notes).found)
        self.assertEqual(self.only("not-kept", notes).record, 3)

    def test_a_script_that_was_kept_and_goes_on(self) -> None:
        notes = self.script("shift,W1,+1\nshow\ncancel,W2\n", "undo", "shift,W1,+1")
        self.assertIn("record 1 is in the journal", self.only("kept-twice", notes).found)
        self.assertEqual(self.only("not-kept", notes).record, 3)

    def test_a_script_that_is_the_journal(self) -> None:
        self.assertEqual([note.kind for note in self.script("cancel,W2\n", "cancel,W2")], ["kept-twice"])

    def test_a_script_that_was_not_kept(self) -> None:
        note = self.only("not-kept", self.script("cancel,W3\nshow\nnonsense\n", "cancel,W2"))
        self.assertIn("1 edit is not in the journal, and `kept` would write over them", note.found)

    def test_a_journal_that_is_no_database(self) -> None:
        self.assertIn("no database", self.only("unreadable", self.notes(CLEAN | {"journal.db": "x" * 2000})).found)


class TestAnswers(NotesTest):
    """How notes are printed."""

    def test_the_text_and_the_status(self) -> None:
        town = write_feed(self.room / "town", silent_feed("a platform in the deadheads"))
        status, text, errors = self.desk("notes", town)
        self.assertEqual(status, 1)
        self.assertNotIn("desk:", errors)
        self.assertEqual(text, 'deadheads.csv record 7: "stn_a" is a platform of the terminal "Station"; the record has no effect. '
                               'Write "Station".\nnotes 1\n')

    def test_a_clean_town_has_status_0(self) -> None:
        self.assertEqual(self.desk("notes", write_feed(self.room / "town", CLEAN))[:2], (0, "notes 0\n"))

    def test_json(self) -> None:
        town = write_feed(self.room / "town", silent_feed("no blocks of today"))
        self.assertEqual(len(self.answer("notes", town, status=1)["notes"]), 1)
        self.assertEqual(self.desk("notes", write_feed(self.room / "other", CLEAN), "--json")[:2], (0, '{\n  "notes": []\n}\n'))

    def test_many_notes_of_a_kind_are_counted(self) -> None:
        rows = [(f"Qq{number}", "Station", 5) for number in range(30)] + [("Station", f"Qq{number}", 5) for number in range(30)]
        write_feed(self.room / "town", CLEAN | {"deadheads.csv": CLEAN["deadheads.csv"] + table("Station,Qq0,5", rows[:30])})
        _, text, _ = self.desk("notes", self.room / "town")
        self.assertIn(f"{30 - MOST_OF_A_KIND} more notes are like the last ones of no-such-place", text)

    def test_a_file_that_cannot_be_read_is_a_note_and_others_are_told(self) -> None:
        notes = self.notes(deadheads__csv="from;to;minutes\nStation;Harbour;9\n", depot__csv=CLEAN["depot.csv"].replace("Harbour", "har_1"))
        note = self.only("refused", notes)
        self.assertEqual((note, note.file, note.found), (notes[0], "deadheads.csv", "no column from"))
        self.assertIn("semicolons", note.do)
        self.assertIn('"har_1" is a platform', self.only("no-such-place", notes).found)

    def test_settings_that_are_not_toml(self) -> None:
        for text, words in (("layover: 5\n", "line 1"), ("layover = " + "9" * 5000, "too large"), ("x = " + "[" * 5000, "too deep"),
                            ("layover = 0x" + "f" * 5000, "too large")):
            with self.subTest(words):
                note, = self.notes(desk__toml=text)
                self.assertEqual((note.kind, note.file, note.found), ("refused", "desk.toml", "not TOML"))
                self.assertIn(words, note.do)

    def test_settings_of_the_newer_toml_are_read(self) -> None:
        """A table over several lines, with a comma at its end, is read as the program reads it."""
        tables = 'layovers = {\n  Station = 8,  # platforms A to C\n  %s = 3,\n}\n'
        head = 'date = "20260907"\nlayover = 5\nblock_prefix = "\\x56"\n'
        self.assertEqual(self.notes(desk__toml=head + tables % "Zoo"), [])
        self.assertIn('"Staton"', self.only("no-such-key", self.notes(desk__toml=head + tables % "Staton")).found)

    def test_a_feed_without_trips_txt(self) -> None:
        notes = self.notes({name: text for name, text in CLEAN.items() if name != "trips.txt"} | {"Trips.txt": CLEAN["trips.txt"]})
        self.assertIn("Rename it", self.only("refused", notes).do)
        self.assertEqual(self.only("file-name", notes).file, "Trips.txt")

    def test_more_trips_than_may_be_planned(self) -> None:
        trips = table("service_id,trip_id,block_id", [("weekday", f"T{number}", "x") for number in range(5000)])
        note = self.only("refused", self.notes(trips__txt=trips))
        self.assertEqual((note.file, note.record, note.found), ("trips.txt", 4097, "too many trips"))
        self.assertIn("5000 trips", note.do)

    def test_what_is_no_folder_is_an_error_in_words(self) -> None:
        town = write_feed(self.room / "town", CLEAN)
        for word, said in ((zip_feed(self.room / "agency.zip", CLEAN), "is a zip"), (town / "trips.txt", f"Give its folder, {town}"),
                           (self.room / "twon", f"{self.room / 'town'}")):
            with self.subTest(word.name):
                status, text, errors = self.desk("notes", word)
                self.assertEqual((status, text), (1, ""))
                self.assertIn(said, errors)

    def test_a_folder_of_another_feed_is_told_by_an_exception(self) -> None:
        with self.assertRaises(DeskError):
            notes_of(Town(Path(self.room / "nowhere")))


if __name__ == "__main__":
    unittest.main()
