"""Hints: each message from which one cannot tell what to mend has words beside it that say so."""
from __future__ import annotations

import os
import sqlite3
import subprocess
import sys
import unittest
from contextlib import closing
from pathlib import Path
from unittest import mock

from desk import program
from desk.hints.edits import wrong
from desk.hints.machine import read_hints, write_hints
from desk.hints.runs import hints_before, hints_of, questions_before
from tests.feeds import Feed, FolderTest, demonstration, files_of, needs_program, table, write_feed, zip_feed
from tests.test_notes import CLEAN

FEED: Feed = {name: text for name, text in CLEAN.items() if name != "edits.csv"}

PAIRS = "before,after,rule\nW1,W2,keep\nW2,S1,never\n"


def changed(file: str, right: str, wrong_text: str) -> dict[str, str | bytes]:
    """A file of the feed with another text in one place."""
    if right not in FEED[file]:
        raise AssertionError(f"{right} is not in {file}")
    return {file: FEED[file].replace(right, wrong_text, 1)}


def toml(line: str) -> dict[str, str | bytes]:
    """A `desk.toml` with a line in place of that of the layover."""
    return changed("desk.toml", "layover = 5", line)


REFUSED: list[tuple[str, dict[str, str | bytes], str, str]] = [
    ("a date with hyphens", changed("desk.toml", '"20260907"', '"2026-09-07"'),
     "desk.toml: bad date", 'other signs between its digits, "2026-09-07". Write `date = "20260907"`'),
    ("a date of TOML", changed("desk.toml", '"20260907"', "2026-09-07"),
     "desk.toml: bad date", "stands without quotes. Write `date = \"20260907\"`"),
    ("a date without quotes", changed("desk.toml", '"20260907"', "20260907"),
     "desk.toml: bad date", "stands without quotes. Write `date = \"20260907\"`"),
    ("a date that does not exist", changed("desk.toml", "20260907", "20260931"),
     "desk.toml: bad date", "there is no such date: September 2026 has 30 days"),
    ("a date with a space", changed("desk.toml", "20260907", "20260907 "), "desk.toml: bad date", "has spaces"),
    ("a colon in place of the sign", toml("layover: 5"),
     "desk.toml: not TOML", 'line 2: "layover: 5": write `layover = 5`'),
    ("a name of two words", changed("desk.toml", "Zoo = 3", "Market Square = 3"),
     "desk.toml: not TOML", 'line 7: "Market Square = 3": write `"Market Square" = 3`'),
    ("curly quotes", toml("block_prefix = “W”"), "desk.toml: not TOML", "straight quotes"),
    ("a text without quotes", toml("block_prefix = W"), "desk.toml: not TOML", 'write `block_prefix = "W"`'),
    ("a list without quotes", toml("services = [weekday, saturday]"),
     "desk.toml: not TOML", 'write `services = ["weekday", "saturday"]`'),
    ("a number with its unit", toml("layover = 5 min"), "desk.toml: not TOML", "write `layover = 5`"),
    ("a value that is missing", toml("layover ="), "desk.toml: not TOML", "a value is missing"),
    ("a quote that is not closed", changed("desk.toml", '"20260907"', '"20260907'),
     "desk.toml: not TOML", "a double quote is not closed"),
    ("a comment of another language", toml("// a comment"), "desk.toml: not TOML", "a comment begins with `#`"),
    ("a key that stands twice", toml("layover = 5\nlayover = 6"), "desk.toml: not TOML", "line 3"),
    ("a table that stands twice", toml("layover = 5\n[layovers]\n"), "desk.toml: not TOML", "this table stood before"),
    ("a number that is too large", toml("layover = 99999999999999999999"), "desk.toml: not TOML", "too large"),
    ("a table in braces that is not closed", toml("zones = {a = 1,\n"),
     "desk.toml: not TOML", 'line 2: "zones = {a = 1,": a comma or the closing brace is missing in the table that begins here'),
    ("a mistake behind a table on several lines", toml("zones = {\n  a = 1,  # one\n}\nlayover: 5"),
     "desk.toml: not TOML", 'line 5: "layover: 5": write `layover = 5`'),
    ("a layover in a table on several lines", {"desk.toml": "layover = 5\nlayovers = {\n  Zoo = 3.5,\n}\n"},
     "desk.toml: bad layovers", '"Zoo" in [layovers] is a number with a point'),
    ("arrays that stand too deep", toml("zones = " + "[" * 90 + "]" * 90), "desk.toml: not TOML", "too deep in one another"),
    ("settings in UTF-16", {"desk.toml": "layover = 5\n".encode("utf-16")}, "desk.toml: not TOML", "UTF-16"),
    ("settings in Latin-1", {"desk.toml": b"layover = 5\n# caf\xe9\n"},
     "desk.toml: not TOML", "line 2: a byte is not UTF-8"),
    ("a name with a point", changed("desk.toml", "Zoo = 3", "St. Mary = 4"),
     "desk.toml: bad layovers", 'line 7: "St. Mary = 4": a name with a point stands in double quotes: write `"St. Mary" = 4`'),
    ("an unknown key", toml("layovr = 5"), "desk.toml: bad layovr", "The nearest one is `layover`"),
    ("a key in capitals", toml("Late = 5"), "desk.toml: bad Late", "The nearest one is `late`"),
    ("a terminal above the tables", toml("Harbour = 5"), "desk.toml: bad Harbour", "below `[layovers]`"),
    ("a route above the tables", toml('line_1 = "big"'), "desk.toml: bad line_1", "below `[classes]`"),
    ("a key that is unlike all", toml("zone = 5"), "desk.toml: bad zone", "The keys are `services`, `date`"),
    ("a layover of a table", changed("desk.toml", "layover = 5", "").copy() | {"desk.toml": "[layover]\nStation = 5\n"},
     "desk.toml: bad layover", "is called `[layovers]`"),
    ("a layover as a text", toml('layover = "5"'), "desk.toml: bad layover", "a text and no whole number"),
    ("a layover of hours", toml("layover = 300"), "desk.toml: bad layover", "from 0 to 240"),
    ("a layover with a point", changed("desk.toml", "Zoo = 3", "Zoo = 3.5"),
     "desk.toml: bad layovers", '"Zoo" in [layovers] is a number with a point'),
    ("a late of two hours", toml("late = 120"), "desk.toml: bad late", "from 0 to 60"),
    ("services that are no list", toml('services = "weekday"'), "desk.toml: bad services", "a text and no list"),
    ("a prefix below the layovers", {"desk.toml": '[layovers]\nblock_prefix = "V"\n'},
     "desk.toml: bad layovers", "`block_prefix` stands below [layovers]. Write the line above [layovers]"),
    ("a tolerance below the classes", {"desk.toml": '[classes]\nline_1 = "big"\nlate = 3\n'},
     "desk.toml: bad classes", "`late` stands below [classes]"),
    ("a class with a slash", {"desk.toml": '[classes]\nline_1 = "big/long"\n'},
     "desk.toml: bad classes", "has a slash"),
    ("a class that is a number", {"desk.toml": "[classes]\nline_1 = 12\n"},
     "desk.toml: bad classes", "a number and no text in quotes"),
    ("names of another word", toml('block_names = "State"'), "desk.toml: bad block_names",
     '`block_names` is "State". Write `block_names = "numbered"` or `block_names = "stated"`.'),
    ("names that are no text", toml("block_names = true"), "desk.toml: bad block_names", "`block_names` is"),
    ("what is preferred as a text", toml('prefer = "stated"'), "desk.toml: bad prefer", "a text and no list"),
    ("a number that is preferred", toml('prefer = ["line", 1]'), "desk.toml: bad prefer", "`prefer` has a number in its list"),
    ("a preference of no name", toml('prefer = ["lines"]'),
     "desk.toml: bad prefer", '`prefer` has "lines" in its list. Write `prefer = ["stated"'),
    ("a preference twice", toml('prefer = ["line", "line"]'), "desk.toml: bad prefer", '`prefer` has "line" twice in its list'),
    ("a prefix that is too long", {"desk.toml": f'block_prefix = "{"B" * 40}"\n'},
     "desk.toml: bad block_prefix", "40 bytes"),
    ("semicolons", {"deadheads.csv": "from;to;minutes\nStation;Harbour;12\n"},
     "deadheads.csv: no column from", "semicolons stand between its fields"),
    ("tabs", {"depot.csv": "terminal\tpull_out\tpull_in\nStation\t1\t1\n"},
     "depot.csv: no column terminal", "tabs stand between its fields"),
    ("UTF-16", {"deadheads.csv": "from,to,minutes\n".encode("utf-16")}, "deadheads.csv: no column from", "UTF-16"),
    ("UTF-16 without its mark", {"deadheads.csv": "from,to,minutes\n".encode("utf-16-le")},
     "deadheads.csv: no column from", "UTF-16"),
    ("a spreadsheet", {"deadheads.csv": b"PK\x03\x04" + b"from,to\n" * 9},
     "deadheads.csv: no column from", "a zip or a spreadsheet"),
    ("no header", {"deadheads.csv": "Station,Harbour,12\n"},
     "deadheads.csv: no column from", "Write `from,to,minutes` above it"),
    ("a header in capitals", {"deadheads.csv": "From,To,Minutes\nStation,Harbour,12\n"},
     "deadheads.csv: no column from", "Write `from` in small letters"),
    ("a column that is misspelt", {"deadheads.csv": "form,to,minutes\n"},
     "deadheads.csv: no column from", '"form" in place of `from`'),
    ("a column with a hyphen", {"terminals.csv": "stop-id,terminal\n"},
     "terminals.csv: no column stop_id", '"stop-id" in place of `stop_id`'),
    ("a column that is not there", {"tolerances.csv": "trip_id,early\n"},
     "tolerances.csv: no column late", "The columns are `trip_id,early,late`"),
    ("a space before a quote", {"deadheads.csv": 'from, "to",minutes\n'},
     "deadheads.csv: no column to", "no space before a quote"),
    ("two byte-order marks", {"deadheads.csv": "\ufeff\ufefffrom,to,minutes\n"},
     "deadheads.csv: no column from", "second byte-order mark"),
    ("a file without a record", {"depot.csv": ""}, "depot.csv: no header", "terminal,pull_out,pull_in"),
    ("a comma in a name", {"depot.csv": "terminal,pull_out,pull_in\nStation, Hospital,8,8\n"},
     "depot.csv record 1: too many fields", "stands in double quotes"),
    ("minutes with their unit", changed("deadheads.csv", "Harbour,12", "Harbour,12 min"),
     "deadheads.csv record 1: bad minutes", '"12 min". It must be a whole number of minutes from 1 to 1440'),
    ("no minutes", changed("deadheads.csv", "Harbour,12", "Harbour,0"),
     "deadheads.csv record 1: bad minutes", "from 1 to 1440"),
    ("a time without seconds", changed("stop_times.txt", "06:20:00,06:20:00", "06:20,06:20"),
     "stop_times.txt record 2: bad arrival_time", "The seconds are missing"),
    ("a time of 61 seconds", changed("stop_times.txt", "06:20:00,06:20:00", "06:20:00,06:20:61"),
     "stop_times.txt record 2: bad departure_time", "at most 59"),
    ("a date in a calendar", changed("calendar.txt", "20260901", "2026-09-01"),
     "calendar.txt record 1: bad start_date", "no hyphens"),
    ("a tolerance that is too large", changed("tolerances.csv", "W1,0,2", "W1,0,90"),
     "tolerances.csv record 1: bad late", "from 0 to 60"),
    ("two records of a terminal", {"depot.csv": FEED["depot.csv"] + "Station,5,5\n"},
     "depot.csv record 5: duplicate", '"Station" stood before, in record 1'),
    ("two records of a pair", {"deadheads.csv": FEED["deadheads.csv"] + "Station,Harbour,5\n"},
     "deadheads.csv record 11: duplicate", '"Station" and "Harbour" stood before, in record 1'),
    ("a way to itself", {"deadheads.csv": FEED["deadheads.csv"] + "Zoo,Zoo,5\n"},
     "deadheads.csv record 11: same terminal", '"Zoo" stands in `from` and in `to`'),
    ("a pair twice", {"pairs.csv": PAIRS + "W2,S1,keep\n"},
     "pairs.csv record 3: duplicate", '"W2" and "S1" stood before, in record 2'),
    ("a trip kept with two", {"pairs.csv": PAIRS + "W1,W3,keep\n"},
     "pairs.csv record 3: duplicate", 'record 1 keeps "W1" with "W2"'),
    ("two trips kept with one", {"pairs.csv": PAIRS + "W3,W2,keep\n"},
     "pairs.csv record 3: duplicate", 'record 1 keeps "W2" with "W1"'),
    ("a pair of one trip", {"pairs.csv": "before,after,rule\nW1,W1,keep\n"},
     "pairs.csv record 1: same trip", '"W1" stands in `before` and in `after`'),
    ("a rule of no form", {"pairs.csv": "before,after,rule\nW1,W2,always\n"},
     "pairs.csv record 1: bad rule", '"always". It must be `keep` or `never`'),
    ("more rules than may be", {"pairs.csv": table("before,after,rule", [(number, "x", "never") for number in range(32_769)])},
     "pairs.csv: too many records", "more than 32,768 records"),
    ("a line of commas alone", {"depot.csv": FEED["depot.csv"] + ",,\n"},
     "depot.csv record 5: empty terminal", "it has commas alone. Take it out"),
    ("a stop twice", {"terminals.csv": FEED["terminals.csv"] + "stn_a,Station\n"},
     "terminals.csv record 6: duplicate", '"stn_a" stood before, in record 1'),
    ("a layover in capitals", toml("Layover = 5"), "desk.toml: bad Layover", "The nearest one is `layover`"),
    ("a layover with a comma", toml("layover = 5,5"),
     "desk.toml: not TOML", "whole numbers without a comma: write `layover = 5` or `layover = 6`"),
    ("a layover of a terminal with a comma", changed("desk.toml", "Zoo = 3", "Zoo = 3,5"),
     "desk.toml: not TOML", "write `Zoo = 3` or `Zoo = 4`"),
    ("a record that is too short", {"depot.csv": FEED["depot.csv"] + "Park,5\n"},
     "depot.csv record 5: empty pull_in", "too few commas"),
    ("a name in Latin-1", {"depot.csv": b"terminal,pull_out,pull_in\nCaf\xe9,5,5\n"},
     "depot.csv record 1: terminal not UTF-8", 'In Windows-1252 it is "Café"'),
    ("a trip with one row", changed("stop_times.txt", "W1,06:20:00,06:20:00,har_1,2\n", ""),
     "stop_times.txt: trip W1 has too few stops", "one row, record 1"),
    ("a trip with a number twice", changed("stop_times.txt", "har_1,2", "har_1,1"),
     "stop_times.txt: trip W1 has a sequence twice", "records 1 and 2"),
    ("a trip without a time at its end", changed("stop_times.txt", "W1,06:20:00,06:20:00", "W1,,"),
     "stop_times.txt: trip W1 has no time at an end", "no time in record 2"),
    ("a trip over midnight that begins anew", changed("stop_times.txt", "W1,06:20:00,06:20:00", "W1,00:20:00,00:20:00"),
     "stop_times.txt: trip W1 not forward", 'departs at "06:00:00", record 1, and arrives at "00:20:00", record 2'),
    ("more trips than may be", {"desk.toml": "", "trips.txt": table("service_id,trip_id", [("weekday", number) for number in range(4100)])},
     "trips.txt record 4097: too many trips", '4100 trips, and 4096 may be. Write the date of one day, as `date = "20260901"`'),
]
"""What is refused, by changed files: the text behind `feed refused: `, and words of its hint."""

EDITS: list[tuple[str, str, str]] = [
    ("Cancel,W1", "not an edit", "write `cancel` in small letters"),
    ("shift,W1,+200", "not an edit", "above 120 minutes"),
    ("shift,W1,5 min", "not an edit", "a sign and digits alone"),
    ("shift,W1,0", "not an edit", "a shift of 0 minutes is none"),
    ("shift,W1", "not an edit", "2 of its 3 fields"),
    ("# a comment", "not an edit", "a comment may not stand in a script"),
    ("cancel;W1", "not an edit", "semicolons stand between its fields"),
    ("extra,X1,Station,Harbour,08:00:00,08:30:00", "not an edit", "has seconds"),
    ("extra,X1,Station,Harbour,8.00,8:30", "not an edit", "two digits of minutes"),
    ("extra,X1,Station,Harbour,08:00", "not an edit", "5 of its 6 fields"),
    ("extra,X1,Station, Hospital,Harbour,08:00,08:30", "not an edit", "a name with a comma stands in double quotes"),
    ("delete,W1", "not an edit", "the edits are"),
    ("undo,W1", "not an edit", "take out what stands behind it"),
    ("cancel,S1", "S1: unknown trip", 'with service "saturday", which does not run on 20260907, a Monday'),
    ("cancel, W1", " W1: unknown trip", 'differs from "W1" by spaces alone'),
    ("cancel,w1", "w1: unknown trip", "by capitals alone"),
    ("cancel,s1", "s1: unknown trip", 'of service "saturday", record 4 of trips.txt, is not selected'),
    ("extra,X1,stn_a,Harbour,08:00,08:30", "X1: unknown place from", '"stn_a" is a platform of the terminal "Station"'),
    ("extra,X1,Station,Harbor,08:00,08:30", "X1: unknown place to", 'the nearest known name is "Harbour"'),
    ("extra,X1,\"Station, Hosp\",Harbour,08:00,08:30", "X1: unknown place from", 'Write "Station, Hospital"'),
    ("extra,X1,Station,Zoo,08:00,08:30", "X1: unknown place to", 'no trip of the day begins or ends at "Zoo"'),
    ("extra,X1,Station,Harbour,23:50,00:20", "X1: not forward", "write `24:20`"),
    ("extra,W2,Station,Harbour,08:00,08:30", "W2: trip exists", "record 2 of trips.txt is a trip of that name"),
    ("shift,W1,+3", "W1: outside tolerance (+3)", "tolerances.csv record 1 allows \"W1\" to run 0 minutes early and 2 late"),
    ("shift,W2,+3", "W2: outside tolerance (+3)", "desk.toml allows \"W2\" to run 0 minutes early and 0 late"),
]
"""Edits that are refused, alone in a script: the text of the refusal behind `record 1: refused`, and words of the hint."""


class HintsTest(FolderTest):
    """A test of hints."""

    def hint(self, command: str, status: int, text: str) -> str:
        """The one hint of a run of a command on the folder `town`."""
        hints = hints_of(command, [str(self.room / "town")], status, text)
        self.assertEqual(len(hints), 1, hints)
        return hints[0]


def refused_line(said: str) -> str:
    """The line of the first record, which is refused with this text."""
    return f"record 1: refused, {said}\n" if ": " in said else f"record 1: refused: {said}\n"


class TestRefusals(HintsTest):
    """Hints on a feed that is refused."""

    def test_each_refusal_has_its_hint(self) -> None:
        for name, files, said, words in REFUSED:
            with self.subTest(name):
                write_feed(self.room / "town", FEED | files)
                hint = self.hint("blocks", 3, f"feed refused: {said}\n")
                self.assertIn(words, hint)
                self.assertTrue(hint.startswith(said.partition(" record")[0].partition(":")[0]) or said.endswith("too many trips"), hint)

    @needs_program
    def test_the_program_refuses_each_of_them_so(self) -> None:
        for name, files, said, _ in REFUSED:
            with self.subTest(name):
                write_feed(self.room / "town", FEED | files)
                outcome = program.run(["deficits", self.room / "town"])
                self.assertEqual((outcome.status, outcome.text), (3, f"feed refused: {said}\n".encode()))

    @needs_program
    def test_notes_begins_with_each_of_them(self) -> None:
        """`notes` says what the program says, with its hint, and never that there is nothing to note."""
        for name, files, said, words in REFUSED:
            with self.subTest(name):
                status, text, _ = self.desk("notes", write_feed(self.room / "town", FEED | files))
                first = text.splitlines()[0]
                self.assertEqual((status, first.startswith(f"feed refused: {said}. ")), (1, True), first)
                self.assertIn(words, first)

    def test_nothing_is_said_where_nothing_is_known(self) -> None:
        town = write_feed(self.room / "town", FEED)
        for said in ("trips.txt: no header of another kind", "other.txt: missing", "nonsense", "desk.toml: bad date",
                     "depot.csv record 99: bad pull_in", "depot.csv record 1: some other text", "stop_times.txt: trip Q9 not forward"):
            with self.subTest(said):
                self.assertEqual(hints_of("blocks", [str(town)], 3, f"feed refused: {said}\n"), [])

    def test_nothing_is_said_of_an_accepted_feed(self) -> None:
        town = write_feed(self.room / "town", FEED | {"deadheads.csv": "x;y"})
        self.assertEqual(hints_of("blocks", [str(town)], 0, "fixed 1, vehicles 1, minutes 0\n"), [])

    def test_a_date_and_no_calendar(self) -> None:
        write_feed(self.room / "town", {name: text for name, text in FEED.items() if name != "calendar.txt"})
        self.assertIn("neither calendar.txt nor calendar_dates.txt", self.hint("blocks", 3, "feed refused: calendar.txt: missing\n"))

    def test_too_many_places(self) -> None:
        write_feed(self.room / "town", FEED)
        self.assertIn("more than 512 places", self.hint("blocks", 3, "feed refused: stop_times.txt: too many places\n"))
        (self.room / "town" / "terminals.csv").unlink()
        self.assertIn("`./desk new` drafts it", self.hint("blocks", 3, "feed refused: stop_times.txt: too many places\n"))


class TestFolders(HintsTest):
    """Hints on what stands in the folder's place."""

    MISSING = "feed refused: trips.txt: missing\n"

    def missing(self, folder: Path) -> str:
        """The one hint where `trips.txt` is missing in a folder."""
        hints = hints_of("blocks", [str(folder)], 3, self.MISSING)
        self.assertEqual(len(hints), 1, hints)
        return hints[0]

    def test_a_folder_within_the_folder(self) -> None:
        write_feed(self.room / "town" / "agency feed", FEED)
        self.assertIn(f"trips.txt stands in {self.room / 'town' / 'agency feed'}", self.missing(self.room / "town"))

    def test_a_folder_too_deep(self) -> None:
        write_feed(self.room / "town", FEED)
        (self.room / "town" / "maps").mkdir()
        self.assertIn("the folder above", self.missing(self.room / "town" / "maps"))

    def test_a_zip_within_the_folder(self) -> None:
        (self.room / "town").mkdir()
        zip_feed(self.room / "town" / "agency.zip", FEED)
        self.assertIn("`./desk new", self.missing(self.room / "town"))

    def test_a_wrong_name_of_the_file(self) -> None:
        for name in ("Trips.txt", "trip.txt", "trips.csv", "trips.txt.txt"):
            with self.subTest(name):
                write_feed(self.room / name, {name: FEED["trips.txt"]})
                self.assertIn("nearly the name of trips.txt", self.missing(self.room / name))

    def test_a_folder_that_is_not_there(self) -> None:
        write_feed(self.room / "town", FEED)
        self.assertIn(f"The nearest name beside it is {self.room / 'town'}", self.missing(self.room / "twon"))
        self.assertIn("there is no folder", self.missing(self.room / "zzzzzz" / "x"))

    def test_an_empty_folder_is_not_told_of(self) -> None:
        (self.room / "town").mkdir()
        self.assertEqual(hints_of("blocks", [str(self.room / "town")], 3, self.MISSING), [])

    @needs_program
    def test_the_program_says_so(self) -> None:
        for folder in (self.room / "twon", self.room):
            outcome = program.run(["blocks", folder])
            self.assertEqual((outcome.status, outcome.text.decode()), (3, self.MISSING))


class TestFaults(HintsTest):
    """Hints on files that cannot be read or written."""

    def setUp(self) -> None:
        super().setUp()
        self.town = write_feed(self.room / "town", FEED)

    def test_a_zip_in_place_of_the_folder(self) -> None:
        path = zip_feed(self.room / "agency.zip", FEED)
        self.assertEqual(hints_of("blocks", [str(path)], 5, ""),
                         [f"{path} is a zip. `./desk new {path} TOWN` unpacks it into a folder and drafts the rest."])

    def test_a_file_in_place_of_the_folder(self) -> None:
        path = self.town / "trips.txt"
        self.assertEqual(hints_of("blocks", [str(path)], 5, ""), [f"{path} is a file of the feed. Give its folder, {self.town}."])

    def test_a_folder_in_place_of_a_file(self) -> None:
        (self.town / "depot.csv").unlink()
        (self.town / "depot.csv").mkdir()
        self.assertIn(f"{self.town / 'depot.csv'} is a folder", self.hint("blocks", 5, ""))

    def test_a_file_that_cannot_be_opened(self) -> None:
        (self.town / "depot.csv").unlink()
        (self.town / "depot.csv").symlink_to("depot.csv")
        self.assertIn(f"{self.town / 'depot.csv'} cannot be read: Too many levels of symbolic links", self.hint("blocks", 5, ""))

    def test_a_file_that_may_not_be_read(self) -> None:
        with mock.patch("builtins.open", side_effect=PermissionError(13, "Permission denied")):
            self.assertEqual(read_hints("blocks", self.town), [f"{self.town / 'desk.toml'} cannot be read: Permission denied. "
                                                               "Ask for the permission to read it, or copy the folder."])

    def test_a_file_of_another_command_is_not_told_of(self) -> None:
        (self.town / "planner_edits.csv").mkdir()
        self.assertEqual(hints_of("blocks", [str(self.town)], 5, ""), [])
        self.assertIn("planner_edits.csv is a folder", self.hint("planners", 5, ""))

    def test_a_folder_in_place_of_a_file_that_is_written(self) -> None:
        for command, name in (("blocks", "prices.csv"), ("write", "trips_blocks.txt"), ("joined", "boards.csv"), ("kept", "edits.csv")):
            with self.subTest(command):
                (self.town / name).mkdir()
                self.assertIn(f"{self.town / name} cannot be written: a folder stands there", self.hint(command, 6, ""))

    def test_a_file_that_may_not_be_written(self) -> None:
        (self.town / "blocks.csv").write_text("")
        with mock.patch("os.open", side_effect=PermissionError(13, "Permission denied")):
            self.assertIn("blocks.csv cannot be written: Permission denied", write_hints("blocks", self.town)[0])

    def test_a_folder_that_may_not_be_written(self) -> None:
        with mock.patch("os.access", return_value=False):
            self.assertIn("the folder may not be changed by you", write_hints("blocks", self.town)[0])

    def test_a_full_disk(self) -> None:
        with mock.patch("shutil.disk_usage", return_value=mock.Mock(free=100)):
            self.assertIn("is full", self.hint("blocks", 6, ""))

    def test_nothing_is_known_of_a_file_that_can_be_written(self) -> None:
        self.assertEqual(hints_of("blocks", [str(self.town)], 6, ""), [])

    def test_looking_for_a_file_that_cannot_be_written_writes_none(self) -> None:
        (self.town / "blocks.csv").write_text("block_id\n")
        write_hints("blocks", self.town)
        self.assertEqual((self.town / "blocks.csv").read_text(), "block_id\n")
        self.assertFalse((self.town / "prices.csv").exists())

    @needs_program
    def test_the_program_ends_with_these_faults(self) -> None:
        self.assertEqual(program.run(["blocks", zip_feed(self.room / "agency.zip", FEED)]).status, 5)
        (self.town / "blocks.csv").mkdir()
        self.assertEqual(program.run(["blocks", self.town]).status, 6)
        (self.town / "journal.db").write_bytes(b"no database" * 200)
        self.assertEqual(program.run(["keep", self.town]).status, 7)


@needs_program
class TestJournals(HintsTest):
    """Hints on a journal that cannot be read or appended to."""

    def setUp(self) -> None:
        super().setUp()
        self.town = write_feed(self.room / "town", FEED)
        self.path = self.town / "journal.db"

    def make(self, statement: str) -> None:
        """Makes a database with a table."""
        with closing(sqlite3.connect(self.path)) as database, database:
            database.execute(statement)

    def test_a_database_that_is_none(self) -> None:
        self.path.write_text("shift,W1,+1\n")
        self.assertEqual(self.hint("keep", 7, ""), f"{self.path}: it is no database: move it away, and `keep` makes a new one.")

    def test_a_database_of_something_else(self) -> None:
        self.make("CREATE TABLE journal(x)")
        self.assertIn("a database of something else", self.hint("keep", 7, ""))

    def test_a_database_that_another_program_has_open(self) -> None:
        self.make("CREATE TABLE journal(seq INTEGER PRIMARY KEY, line TEXT NOT NULL)")
        opens = ("import sqlite3, sys; sqlite3.connect(sys.argv[1], isolation_level=None).execute('BEGIN EXCLUSIVE'); "
                 "print(); sys.stdin.read()")
        with subprocess.Popen([sys.executable, "-c", opens, self.path], stdin=subprocess.PIPE, stdout=subprocess.PIPE) as other:
            other.stdout.readline()
            self.assertIn("another program has it open", self.hint("keep", 7, ""))
            other.communicate()
        self.assertEqual(hints_of("keep", [str(self.town)], 7, ""), [])

    def test_looking_at_a_journal_leaves_its_folder_as_it_is(self) -> None:
        with closing(sqlite3.connect(self.path)) as database:
            database.execute("PRAGMA journal_mode = WAL")
        self.make("CREATE TABLE journal(seq INTEGER PRIMARY KEY, line TEXT NOT NULL)")
        before = files_of(self.town)
        self.assertEqual(hints_of("keep", [str(self.town)], 7, ""), [])
        self.assertEqual(files_of(self.town), before)

    def test_a_database_that_is_damaged(self) -> None:
        self.make("CREATE TABLE journal(seq INTEGER PRIMARY KEY, line TEXT NOT NULL)")
        content = self.path.read_bytes()
        self.path.write_bytes(content[:100] + b"\xff" * (len(content) - 100))
        self.assertIn("damaged", self.hint("keep", 7, ""))

    def test_a_folder_in_place_of_the_journal(self) -> None:
        self.path.mkdir()
        self.assertIn("is a folder", self.hint("keep", 7, ""))

    def test_a_folder_that_is_not_there(self) -> None:
        self.assertIn("there is no folder", hints_of("keep", [str(self.room / "nowhere")], 7, "")[0])

    def test_a_journal_that_may_not_be_written(self) -> None:
        self.make("CREATE TABLE journal(seq INTEGER PRIMARY KEY, line TEXT NOT NULL)")
        with mock.patch("os.access", return_value=False):
            self.assertIn("may not be written by you", self.hint("keep", 7, ""))

    def test_no_journal_before_kept(self) -> None:
        (self.town / "edits.csv").unlink(missing_ok=True)
        hint, = hints_before("kept", [str(self.town)])
        self.assertIn(f"there was no journal in {self.town}. `kept` has made an empty one and an empty edits.csv", hint)
        (self.town / "edits.csv").write_text("show\nshift,W1,1\ncancel,W2\n")
        self.assertIn("edits.csv had 2 edits that the journal does not have, from record 2 on", hints_before("kept", [str(self.town)])[1])

    def test_edits_that_kept_writes_over(self) -> None:
        self.make("CREATE TABLE journal(seq INTEGER PRIMARY KEY, line TEXT NOT NULL)")
        self.make("INSERT INTO journal(line) VALUES ('shift,W1,+1')")
        (self.town / "edits.csv").write_text("shift,W1,1\ncancel,W2\n")
        self.assertEqual(hints_before("kept", [str(self.town)]), [
            "edits.csv had 1 edit that the journal does not have, from record 2 on. `kept` has written over them."])
        (self.town / "edits.csv").write_text("shift,W1,1\n")
        self.assertEqual(hints_before("kept", [str(self.town)]), [])

    def test_edits_that_keep_does_twice(self) -> None:
        self.make("CREATE TABLE journal(seq INTEGER PRIMARY KEY, line TEXT NOT NULL)")
        self.make("INSERT INTO journal(line) VALUES ('cancel,W3'), ('shift,W1,+1')")
        for script, words in (("shift,W1,1\ncancel,W2\n", ["record 1 of edits.csv"]), ("cancel,W2\n", []),
                              ("cancel,W3\nshow\nshift,W1,1\n", ["records 1 to 3 of edits.csv"])):
            with self.subTest(script):
                (self.town / "edits.csv").write_text(script)
                hints = questions_before("keep", [str(self.town)])
                self.assertEqual([word in hint for hint, word in zip(hints, words, strict=True)], [True] * len(words))
        (self.town / "edits.csv").unlink()
        self.assertEqual(questions_before("keep", [str(self.town)]), [])

    def test_nothing_is_said_before_another_command_or_of_a_journal_that_cannot_be_read(self) -> None:
        for command, words in (("blocks", [str(self.town)]), ("keep", [str(self.town)]), ("kept", []), ("kept", [str(self.room / "nowhere")])):
            with self.subTest(command, words=words):
                self.assertEqual(hints_before(command, words) + questions_before(command, words), [])
        self.path.write_bytes(b"no database" * 200)
        (self.town / "edits.csv").write_text("cancel,W2\n")
        self.assertEqual(hints_before("kept", [str(self.town)]), [])

    def test_nothing_is_known_of_a_journal_in_order(self) -> None:
        self.make("CREATE TABLE journal(seq INTEGER PRIMARY KEY, line TEXT NOT NULL)")
        self.assertEqual(hints_of("keep", [str(self.town)], 7, ""), [])


@needs_program
class TestAudit(HintsTest):
    """Hints on the blocks of today: the layovers with which they can run, and trips without `block_id`."""

    def audit(self, departs: str, **changed: str) -> tuple[int, list[str]]:
        """The status and the hints of the clean town, where W3 departs from the station then, after W2 that is there at 06:51."""
        times = FEED["stop_times.txt"].replace("07:00:00,07:00:00", f"{departs},{departs}")
        trips = FEED["trips.txt"].replace("today.2", "today.1")
        files = {"stop_times.txt": times, "trips.txt": trips} | {name.replace("__", "."): text for name, text in changed.items()}
        status, _, errors = self.desk("audit", write_feed(self.room / "town", FEED | files))
        return status, errors.splitlines()

    def test_layovers_with_which_the_blocks_can_run(self) -> None:
        """With 8 minutes W2 is free at 06:59, so four less are needed."""
        self.assertEqual(self.audit("06:55:00"), (4, ["desk: with these layovers today's blocks can run, as `audit` says: \"Station\" = 4. "
                                                      "Write them below [layovers] of desk.toml."]))
        toml_text = FEED["desk.toml"].replace("Station = 8", "Station = 4")
        self.assertEqual(self.audit("06:55:00", desk__toml=toml_text), (0, []))

    def test_pairs_that_no_layover_mends(self) -> None:
        self.assertEqual(self.audit("06:45:00"), (4, ['desk: 1 pair does not fit with any layover: the first is "W2" to "W3", 14 minutes too late. '
                                                      "Are times, deadheads and terminals right?"]))
        far = FEED["stop_times.txt"].replace("W3,07:00:00,07:00:00,stn_b", "W3,07:00:00,07:00:00,zoo_1")
        self.assertIn('"W2" to "W3", no way leads there', self.audit("07:00:00", stop_times__txt=far)[1][0])

    def test_repeated_trips_are_told_apart_from_those_of_the_agency(self) -> None:
        feed = demonstration() | {"trips.txt": demonstration()["trips.txt"].replace("to Airport,1,2", "to Airport,1,")}
        for name, changed_feed, words in (("one", demonstration(), "136 stated blocks are single trips without `block_id`: all of them repeat a trip of"),
                                          ("two", feed, "137 stated blocks are single trips without `block_id`: 136 of them repeat a trip of "
                                                        "frequencies.txt, and 1 have none from the agency")):
            with self.subTest(name):
                self.desk("new", zip_feed(self.room / f"{name}.zip", changed_feed), self.room / name)
                self.assertIn(words, self.desk("audit", self.room / name)[2])
                self.assertIn(words.partition(": ")[2], self.desk("notes", self.room / name)[1])


class TestEdits(HintsTest):
    """Hints on records of scripts that are refused."""

    def test_each_refused_edit_has_its_hint(self) -> None:
        for edit, said, words in EDITS:
            with self.subTest(edit):
                write_feed(self.room / "town", FEED | {"edits.csv": edit + "\n"})
                hint = self.hint("blocks", 1, refused_line(said) + "fixed 1, vehicles 1, minutes 0\n")
                self.assertTrue(hint.startswith("edits.csv record 1: "), hint)
                self.assertIn(words, hint)

    @needs_program
    def test_the_program_refuses_each_of_them_so(self) -> None:
        write_feed(self.room / "town", FEED | {"edits.csv": "".join(edit + "\n" for edit, _, _ in EDITS)})
        outcome = program.run(["fixed", self.room / "town"])
        said = [refused_line(text).replace("record 1:", f"record {number}:", 1) for number, (_, text, _) in enumerate(EDITS, 1)]
        self.assertEqual(outcome.status, 1)
        self.assertEqual(outcome.text.decode().splitlines(keepends=True)[:len(said)], said)

    @needs_program
    def test_the_program_says_not_an_edit_exactly_of_those_that_are_wrong(self) -> None:
        edits = [" shift ,W1, 002 ,,", "shift,W1,-60", "shift,W1,+ 7", "shift,W1,121", "shift,W1,0007", "cancel,W1,,,", "cancel,",
                 "cancel,\udcff", "restore,W1", " show", "show ,", "extra,U3,A,B, 8:00 ,08:05,,", "extra,U4,A,B,8:0,8:05", ",W1", "shift,,5",
                 "extra,U4,A,B,08:00,100:00", "extra,U3,,B,8:00,9:00", "redo", "Undo", "extra,,A,B,8:00,9:00", "shift,W1,", '""',
                 "extra,U3,\udcff,B,8:00,9:00", "cancel,W1,x"]
        write_feed(self.room / "town", FEED | {"edits.csv": "".join(edit + "\n" for edit in edits).encode("utf-8", "surrogateescape")})
        lines = program.run(["fixed", self.room / "town"]).text.decode().splitlines()
        refused = {int(line.split(" ")[1][:-1]) for line in lines if line.endswith(": not an edit")}
        for number, edit in enumerate(edits, 1):
            fields = edit.strip('"').split(",")
            while len(fields) > 1 and not fields[-1]:
                fields.pop()
            with self.subTest(edit):
                self.assertEqual(wrong(fields) is not None, number in refused)

    def script(self, script: str, text: str, command: str = "blocks", file: str = "edits.csv") -> list[str]:
        """The hints of a script whose run has put this text."""
        write_feed(self.room / "town", FEED | {file: script})
        return hints_of(command, [str(self.room / "town")], 1, text)

    def test_a_trip_that_an_edit_has_cancelled(self) -> None:
        hints = self.script("cancel,W1\nshift,W1,+1\n", "record 2: refused, W1: not live\n")
        self.assertEqual(hints, ['edits.csv record 2: record 1 cancels "W1". Write `restore,W1` before this record, or take it out.'])

    def test_a_trip_that_an_edit_has_added(self) -> None:
        edit = "extra,X1,Station,Harbour,08:00,08:30\n"
        self.assertEqual(self.script(edit + edit, "record 2: refused, X1: trip exists\n"),
                         ["edits.csv record 2: record 1 adds a trip of that name. Choose another name."])

    def test_a_trip_that_would_run_the_day_before(self) -> None:
        hints = self.script("shift,W1,-120\n", "record 1: refused, W1: before midnight\n")
        self.assertIn('"W1" departs at 06:00:00', hints[0])

    def test_what_is_known_already_is_not_said_again(self) -> None:
        self.assertEqual(self.script("undo\nredo\nrestore,W1\n", "record 1: refused: nothing to undo\nrecord 2: refused: nothing to redo\n"
                                                                 "record 3: refused, W1: not cancelled\n"), [])

    @needs_program
    def test_a_script_in_utf16(self) -> None:
        for name, command in (("edits.csv", "blocks"), ("planner_edits.csv", "planners")):
            for encoding in ("utf-16", "utf-16-le"):
                with self.subTest(name, encoding=encoding):
                    record = "ann,cancel,W1\ncancel,W2\n" if command == "planners" else "cancel,W1\ncancel,W2\n"
                    town = write_feed(self.room / f"{command} {encoding}", FEED | {name: record.encode(encoding)})
                    self.assertEqual(self.desk(command, town)[2], f"desk: {name}: it is UTF-16. Save it as CSV in UTF-8, with commas.\n")

    def test_a_name_that_is_the_front_of_a_terminal(self) -> None:
        terminals = FEED["terminals.csv"].replace("har_1,Harbour", 'har_1,"Airport, Terminal 1"')
        for name, words in (("Airport", 'is the front of "Airport, Terminal 1". Write "Airport, Terminal 1", if that is meant'),
                            ("airport", 'Write "Airport, Terminal 1"')):
            with self.subTest(name):
                write_feed(self.room / "town", FEED | {"terminals.csv": terminals, "edits.csv": f"extra,X1,{name},Station,08:00,08:30\n"})
                self.assertIn(words, self.hint("fixed", 1, "record 1: refused, X1: unknown place from\n"))
        terminals += 'x,"Airport, Terminal 2"\n'
        write_feed(self.room / "town", {"terminals.csv": terminals})
        self.assertIn('Write "Airport, Terminal 1" or "Airport, Terminal 2"', self.hint("fixed", 1, "record 1: refused, X1: unknown place from\n"))

    def test_no_more_hints_than_can_be_read(self) -> None:
        text = "".join(f"record {number}: refused: not an edit\n" for number in range(1, 101))
        hints = self.script("nonsense\n" * 100, text)
        self.assertEqual(len(hints), 21)
        self.assertEqual(hints[-1], "80 more records are refused. Mend these first.")

    def test_limits(self) -> None:
        self.assertEqual(self.script("show\n", "record 1: refused: too many shows\n"),
                         ["edits.csv record 1: a script has 64 shows at the most."])

    def test_places_of_classes(self) -> None:
        toml_text = 'date = "20260907"\n[classes]\nline_1 = "big"\n'
        write_feed(self.room / "town", FEED | {"desk.toml": toml_text, "edits.csv": "extra,X1,Station,Harbour/big,08:00,08:30\n"})
        self.assertIn('Write "Station/" or "Station/big"', self.hint("blocks", 1, "record 1: refused, X1: unknown place from\n"))

    def test_records_of_planners(self) -> None:
        for record, words in (("ann,Cancel,W1", "write `cancel`"), ("ann", "an edit is missing"), ("ann,redo", "`redo` is no edit of a planner"),
                              ("cancel,W1", "the planner's name is missing in front of `cancel`"),
                              (",cancel,W1", "the planner's name is missing in its first field")):
            with self.subTest(record):
                hints = self.script(record + "\n", "planner 1: refused: not an edit\n", "planners", "planner_edits.csv")
                self.assertEqual(len(hints), 1)
                self.assertTrue(hints[0].startswith("planner_edits.csv record 1: "))
                self.assertIn(words, hints[0])

    def test_a_record_that_another_planner_holds(self) -> None:
        hints = self.script("ann,cancel,W1\nbob,restore,W1\nann,undo\n", "planner 3: refused, W1: held by record 2\n",
                            "planners", "planner_edits.csv")
        self.assertEqual(hints, ['planner_edits.csv record 3: record 2 of "bob" names the same trip. "bob" takes it back first.'])

    def test_records_of_the_journal(self) -> None:
        write_feed(self.room / "town", FEED)
        with closing(sqlite3.connect(self.room / "town" / "journal.db")) as database, database:
            database.execute("CREATE TABLE journal(seq INTEGER PRIMARY KEY, line TEXT NOT NULL)")
            database.execute("INSERT INTO journal(line) VALUES ('cancel,S1')")
        hint = self.hint("keep", 1, "journal 1 records\njournal 1: refused, S1: unknown trip\nkept 1 records\n")
        self.assertIn("does not run on 20260907", hint)


class TestClaims(HintsTest):
    """Hints on a `no` of `check`."""

    def setUp(self) -> None:
        super().setUp()
        self.town = write_feed(self.room / "town", FEED)

    def test_files_that_are_not_there(self) -> None:
        self.assertIn("`./desk blocks", self.hint("check", 4, "no: blocks.csv: missing\n"))
        (self.town / "block.csv").write_text("block_id,trip_id,deadhead\n")
        self.assertIn("Rename it", self.hint("check", 4, "no: blocks.csv: missing\n"))

    def test_a_header_of_another_form(self) -> None:
        (self.town / "blocks.csv").write_text("block_id;trip_id;deadhead\nB1;W1;0\n")
        self.assertIn("semicolons", self.hint("check", 4, "no: blocks.csv record 0: not in form\n"))

    def test_a_record_of_another_form(self) -> None:
        (self.town / "blocks.csv").write_text("block_id,trip_id,deadhead\nB1,W1,5 min\n")
        self.assertIn('"B1,W1,5 min"', self.hint("check", 4, "no: blocks.csv record 1: not in form\n"))

    def test_a_feed_that_changed_after_the_plan(self) -> None:
        for name in ("blocks.csv", "prices.csv"):
            (self.town / name).write_text("")
        (self.town / "depot.csv").write_text(FEED["depot.csv"])
        os.utime(self.town / "blocks.csv", (10, 10))
        self.assertIn("depot.csv", self.hint("check", 4, "no: blocks.csv record 1: unknown trip W9\n"))

    def test_an_audit_says_no_of_its_own(self) -> None:
        self.assertEqual(hints_of("audit", [str(self.town)], 4, "no: 2 pairs do not fit\n"), [])


class TestUsage(unittest.TestCase):
    """Hints on words of no form."""

    def test_a_sample(self) -> None:
        self.assertIn("from 0 to 4096", hints_of("sample", ["5000"], 2, "usage: ..\n")[0])

    def test_no_folder_and_too_many(self) -> None:
        self.assertIn("`./desk blocks town`", hints_of("blocks", [], 2, "")[0])
        self.assertIn("2 words stand behind it", hints_of("blocks", ["a", "b"], 2, "")[0])


if __name__ == "__main__":
    unittest.main()
