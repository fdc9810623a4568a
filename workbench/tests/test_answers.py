"""The one reader of the program's answers: a status and a text, and names that would make another answer of a text."""
from __future__ import annotations

import json
import os
import shutil
from collections.abc import Iterator
from pathlib import Path
from unittest import mock

from desk import program, texts
from desk.answers import FeedRefused, ask, read, status_of, tell
from desk.errors import DeskError
from desk.hints.names import shown
from desk.notes.refusal import refusal_of
from desk.open.session import Session
from desk.program import NO
from desk.records import record_text
from desk.town import Town
from desk.unlisted_terminals import unlisted_of_plan
from desk.unpacking import unpack
from tests.feeds import FolderTest, needs_program
from tests.small_town import plan, rows, two_trips

YES = "yes, vehicles 1, minutes 45"
NAMES = (f"U9\n{YES}", f"U9: unknown trip\r\n{YES}\n", f'"{YES}"', f"U9\nno: x\n{YES}", "sum 0 06:00 06:30; U8")
"""Names that anybody may have put into a file."""

ASKED = {"yes": ("check", b"yes, vehicles 1, minutes 45\n", 0), "no": ("check", b"no: prices sum to 9, weights to 8\n", NO),
         "refused": ("check", b"record 1: refused, U9: unknown trip\nyes, vehicles 1, minutes 45\n", 0),
         "done": ("fixed", b"fixed 0\n", 0), "record": ("fixed", b"record 1: refused, U9: unknown trip\nfixed 0\n", 1),
         "records": ("blocks", b"record 1: refused: not an edit\nfixed 0, vehicles 0, minutes 0\n", 1),
         "planner": ("planners", b"planner 1: refused: not an edit\nfixed 0, vehicles 0, minutes 0\n", 1),
         "stated": ("audit", b"block X: U1 to U2 no way\nno: 1 pairs do not fit\n", NO), "feed": ("fixed", b"feed refused: trips.txt: missing\n", 3)}
"""Texts with the one status of each, by the tables of statuses and of texts."""

FAKE = """#!/bin/sh
printf '%b' '{text}'
exit {status}
"""


class Read(FolderTest):
    """A status and a text."""

    def test_each_text_has_one_status(self) -> None:
        for name, (command, text, wanted) in ASKED.items():
            for status in (*range(9), -9):
                with self.subTest(name, status=status):
                    if status == wanted:
                        self.assertEqual(status_of(command, read(command, status, text, None)), wanted)
                    else:
                        self.assertRaises(DeskError, read, command, status, text, None)

    def test_a_program_that_says_yes_with_another_status(self) -> None:
        """Whatever stands in the program's place: a text of one status with another one is no answer."""
        town = Town(two_trips(self.room / "town"))
        path = self.room / "fake"
        with mock.patch.dict(os.environ, {"BLOCKDESK": str(path)}):
            for text, status, why in ((YES + "\\n", 4, "status 4"), ("no: x\\n" + YES + "\\n", 4, "line 2"), (YES, 0, "end of a line"), ("", 0, "said nothing")):
                path.write_text(FAKE.format(text=text, status=status))
                path.chmod(0o755)
                with self.subTest(text), self.assertRaisesRegex(DeskError, why):
                    ask("check", town)
            for text, status in (("wrote it\\n", 6), ("wrote it", 0), ("", 0), ("feed refused: x", 3)):
                path.write_text(FAKE.format(text=text, status=status))
                with self.assertRaisesRegex(DeskError, f"write of .* ended with status {status}: ({text[:8]}|it said nothing)"):
                    tell("write", town.folder, self.room)

    def test_a_program_that_takes_and_refuses_a_feed(self) -> None:
        """Only a refusal with its status is one, whatever names stand in it. With other texts nothing is made of that status."""
        town = Town(two_trips(self.room / "town"))
        path = self.room / "fake"
        said = f"stop_times.txt: trip U9\n{YES} has too few stops"
        with mock.patch.dict(os.environ, {"BLOCKDESK": str(path)}):
            for text, status in ((f"feed refused: {said}\n", 0), ("sum 0\n", 3), ("sum 0\n", 1), ("sum 0\n", 9), ("sum 0", 0), (f"feed refused: {said}", 3)):
                path.write_text(FAKE.format(text=text.replace("\n", "\\n"), status=status))
                path.chmod(0o755)
                with self.subTest(text, status=status):
                    self.assertRaises(DeskError, refusal_of, town)
                    if text != "sum 0\n" or status > 1:
                        self.assertRaises((DeskError, OSError), unlisted_of_plan, town)
            path.write_text(FAKE.format(text=f"feed refused: {said}\\n".replace("\n", "\\n"), status=3))
            self.assertEqual((refusal_of(town), unlisted_of_plan(town)), (said, []))
            with self.assertRaises(FeedRefused) as refused:
                tell("write", town.folder)
            self.assertEqual(refused.exception.said, said)


@needs_program
class Names(FolderTest):
    """Names of a feed, of a script and of a claim, before each command of the workbench."""

    def towns(self) -> Iterator[tuple[str, Path, bool]]:
        """Towns in which a name stands in one file, with that file, and whether `check` says yes of each."""
        for number, name in enumerate(NAMES):
            at = self.room / str(number)
            claim = two_trips(at / "claim")
            plan(claim)
            (claim / "blocks.csv").write_text("block_id,trip_id,deadhead\n" + record_text(["B1", name, "0"]), newline="")
            yield "blocks.csv", claim, False
            feed = two_trips(at / "feed")
            plan(feed)
            with open(feed / "trips.txt", "a", newline="") as file:
                file.write(record_text(["R", "W", name, ""]))
            with open(feed / "stop_times.txt", "a", newline="") as file:
                file.writelines(record_text([name, time, time, stop, order]) for time, stop, order in (("08:00:00", "A", "1"), ("08:30:00", "B", "2")))
            yield "trips.txt", feed, False
            script = two_trips(at / "script", {"edits.csv": record_text(["cancel", name])})
            plan(script)
            yield "edits.csv", script, True

    def test_no_name_makes_another_verdict(self) -> None:
        """Where `check` ends with 4, no command says yes or ends as if it did, and no version does later."""
        for file, town, yes in self.towns():
            with self.subTest(file, name=town.parent.name):
                checked = program.run(["check", town])
                self.assertEqual(checked.status, 0 if yes else NO)
                for words in (("save", town, "v"), ("saved", town), ("saved", town, "v"), ("boards", town), ("figures", town),
                              ("compare", town, town), ("check", town, "--json")):
                    status, text, _ = self.desk(*words)
                    if not yes and words != ("saved", town):
                        self.assertNotEqual(status, 0, words)
                    if not yes:
                        self.assertNotRegex(text, f"(?m)^(saved v: |v stands: |v  .*  |(was|is) .*: )?{YES}$", words)
                        self.assertNotIn('"verdict": "yes"', text)

    def test_no_name_makes_another_plan(self) -> None:
        """The page and the texts as JSON are of the trips that the program plans, or are refused in words."""
        trips = {"U1", "U2"}
        for file, town, _ in self.towns():
            with self.subTest(file, name=town.parent.name):
                names = trips | ({NAMES[int(town.parent.name)]} if file == "trips.txt" else set())
                try:
                    day = Session(town).day()["day"]
                except DeskError as error:
                    self.assertRegex(str(error), "hides where names end|of no form|can be read in")
                else:
                    self.assertEqual({trip["id"] for trip in day["trips"] if trip["runs"]}, names)
                for command in sorted(texts.READERS):
                    outcome = program.run([command, town])
                    try:
                        said = read(command, outcome.status, outcome.text, town)
                    except DeskError:
                        continue
                    shown = [trip["trip"] for block in said.get("blocks", []) if isinstance(block, dict) for trip in block["trips"]] if command == "fixed" else []
                    self.assertLessEqual(set(shown), names)

    def test_a_version_that_an_older_workbench_has_saved(self) -> None:
        """A `no` whose last line is a yes is told as what it is when versions are listed."""
        town = two_trips(self.room / "town")
        plan(town)
        self.desk("save", town, "good")
        self.desk("save", town, "bad")
        (town / "saved" / "bad" / "check.txt").write_text(f"no: blocks.csv record 1: unknown trip U9\n{YES}\n")
        status, text, _ = self.desk("saved", town)
        self.assertEqual(status, 1)
        self.assertRegex(text.splitlines()[0], f"^good  .*  {YES}$")
        self.assertRegex(text.splitlines()[1], "^bad  .*  its check.txt is no text of `check`; `./desk saved .* bad` asks anew$")


LACKED = {"trip": {"B": "0 pull-outs end and 1 pull-in begins"}, "script": {"B": "0 pull-outs end and 0 pull-ins begin"},
          "place": {"B": "0 pull-outs end and 1 pull-in begins", "": "1 pull-out ends and 0 pull-ins begin"}}
"""By where a name stands, which terminals have no record in `depot.csv`, and what the plan makes of it. The empty one is the name's.

U1 goes from A to B, U2 from C to A, and the third trip from 08:00 to 08:30 to B: from A as the third of one vehicle, or from the place
of the name as a vehicle of its own.
"""


@needs_program
class NamesOfATown(FolderTest):
    """Names of a trip, of a place and in a script, before the commands that plan, tell, part and hand over."""

    def towns(self) -> Iterator[tuple[str, str, Path, list[str]]]:
        """Towns in which a name stands in one place, with the name and the trips."""
        for number, name in enumerate(NAMES):
            for kind in LACKED:
                script = {"edits.csv": record_text(["cancel", name])} if kind == "script" else {}
                town = two_trips(self.room / f"{number}-{kind}", {"routes.txt": "route_id,agency_id\nR,a\nS,b\n", **script})
                trip, start = (name, "A") if kind == "trip" else ("U3", name)
                if kind != "script":
                    with open(town / "trips.txt", "a", newline="") as file:
                        file.write(record_text(["S", "W", trip, ""]))
                    with open(town / "stop_times.txt", "a", newline="") as file:
                        file.writelines(record_text([trip, time, time, stop, order])
                                        for time, stop, order in (("08:00:00", start, "1"), ("08:30:00", "B", "2")))
                yield kind, name, town, ["U1", "U2"] + ([trip] if kind != "script" else [])

    def told(self, *words: str | Path) -> tuple[int, str, str]:
        """What a command tells. Neither of its texts has a line that says yes, or a name that ends one."""
        status, text, errors = self.desk(*words)
        if words[0] != "blocks":
            self.assertNotRegex(text, f"(?m)^{YES}$")
        self.assertNotRegex(errors, f"(?m)^{YES}$")
        self.assertTrue(all(line.startswith("desk: ") for line in errors.splitlines()), errors)
        return status, text, errors

    def test_what_stands_below_blocks(self) -> None:
        for kind, name, town, _ in self.towns():
            with self.subTest(town.name):
                wanted = [f"desk: depot.csv has no record of {shown(place or name)}, so the ways out and home take 0 minutes: {ways} there. "
                          "Write one, if the depot does not lie there." for place, ways in LACKED[kind].items()]
                self.assertCountEqual(self.told("blocks", town)[2].splitlines(), wanted)

    def test_notes(self) -> None:
        """A name with a line end is a note of its own where `deficits` puts it, and the others stand as without it."""
        for kind, name, town, _ in self.towns():
            with self.subTest(town.name):
                status, text, _ = self.told("notes", town, "--json")
                found = [(note["kind"], note["file"], note["record"]) for note in json.loads(text)["notes"]]
                record = ("unreadable", *{"trip": ("", None), "place": ("trips.txt", 3), "script": ("edits.csv", 1)}[kind])
                self.assertEqual([note for note in found if note[0] in ("refused", "unreadable")], [record] if "\n" in name and kind != "trip" else [])
                self.assertEqual((status, found.count(("no-depot-record", "depot.csv", None))), (1, len(LACKED[kind])))
                self.told("notes", town)

    def test_notes_of_a_feed_that_is_refused(self) -> None:
        for number, name in enumerate(NAMES):
            town = two_trips(self.room / str(number))
            with open(town / "trips.txt", "a", newline="") as file:
                file.write(record_text(["R", "W", name, ""]))
            first = json.loads(self.told("notes", town, "--json")[1])["notes"][0]
            self.assertEqual((first["kind"], first["file"], first["found"]), ("refused", "stop_times.txt", f"trip {name} has too few stops"))
            status, text, errors = self.told("publish", town, self.room / "out.zip")
            self.assertEqual((status, text, (self.room / "out.zip").exists()), (1, "", False))
            self.assertIn("feed refused: stop_times.txt: trip ", errors)

    def test_publish(self) -> None:
        """Nothing is written where a name hides ends in a text of the plan. Else the feed has the trips, the new one in a block."""
        for kind, name, town, trips in self.towns():
            with self.subTest(town.name):
                out = self.room / f"{town.name}.zip"
                status, text, errors = self.told("publish", town, out, "--figures", "--boards")
                if "\n" in name or "; " in name and kind != "place":
                    self.assertEqual((status, text, list(self.room.glob(f"{town.name}*.*"))), (1, "", []))
                    self.assertIn("hides where names end", errors)
                    continue
                feed = self.room / f"{town.name}-feed"
                feed.mkdir()
                unpack(out, feed)
                self.assertEqual((status, [row["trip_id"] for row in rows(feed / "trips.txt")]), (kind == "script", trips))
                self.assertEqual(len({row["block_id"] for row in rows(feed / "trips.txt")}), 2 if kind == "place" else 1)

    @mock.patch("os.sync")
    def test_part(self, _: mock.Mock) -> None:
        for kind, _, town, trips in self.towns():
            with self.subTest(town.name):
                if kind != "script":
                    self.assertEqual(self.told("part", town, "--by", "agency")[0], 0)
                    for part, wanted in (("a", trips[:2]), ("b", trips[2:])):
                        for file in ("trips.txt", "stop_times.txt"):
                            self.assertEqual(list(dict.fromkeys(row["trip_id"] for row in rows(town.parent / f"{town.name}-{part}" / file))), wanted)

    @mock.patch("os.sync")
    def test_new_more(self, _: mock.Mock) -> None:
        """The agency's new trip is in the town, under its name and between its places."""
        for kind, name, town, trips in self.towns():
            with self.subTest(town.name):
                feed, own = self.room / f"{town.name}-agency", two_trips(self.room / f"{town.name}-own")
                feed.mkdir()
                for file in ("trips.txt", "stop_times.txt"):
                    shutil.copy(town / file, feed)
                status, text, errors = self.told("new", feed, own, "--more")
                self.assertEqual((status, errors, text.splitlines()[0]), (1, "", f"{own}: {len(trips)} trips, with what {feed} needs"))
                self.assertEqual([row["trip_id"] for row in rows(own / "trips.txt")], trips)
                self.assertEqual(name in {row["stop_id"] for row in rows(own / "stop_times.txt")}, kind == "place")
                self.assertEqual(program.run(["fixed", own]).status, 0)
