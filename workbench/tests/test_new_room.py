"""A town that is made anew: all of it or none, and nothing that a planner has put into `agency/` is lost."""
from __future__ import annotations

import fcntl
import os
import shutil
import signal
import time
from pathlib import Path
from unittest import mock

from desk.files import new_mode
from desk.new.room import BEFORE, STEPS, settle, town_room
from tests.feeds import FIRST_DAY, FolderTest, agency, demonstration, write_feed, zip_feed

Standing = dict[str, bytes | None]


def standing(folder: Path) -> Standing:
    """All that stands in a folder but its lock: the bytes of each file, None of each folder."""
    return {str(path.relative_to(folder)): None if path.is_dir() else path.read_bytes()
            for path in folder.rglob("*") if path.name != ".desk.lock"}


class AllOrNone(FolderTest):
    """A town of old files in whose place new ones come."""

    OLD = {"trips.txt": "old", "stop_times.txt": "old", "calendar.txt": "old", "desk.toml": "old", "edits.csv": "show\n"}
    NEW = {"trips.txt": "new", "stop_times.txt": "new", "calendar_dates.txt": "new", "desk.toml": "new", "terminals.csv": "new"}
    STEPS = 2 + 5 + 6 + 1
    """The renames of a run: of the list and of what it stands in, of what goes aside, of what comes in, and the last one."""

    def setUp(self) -> None:
        super().setUp()
        self.town = write_feed(self.room / "town", self.OLD)
        write_feed(self.town / "agency", {"stops.txt": "old", "trips.txt": "old"})
        self.before = standing(self.town)
        self.after: Standing = {"agency": None, "agency/trips.txt": b"new", "edits.csv": b"show\n"} | {name: text.encode() for name, text in self.NEW.items()}

    def replace(self) -> None:
        """Makes the town anew."""
        with town_room(self.town, True) as room:
            write_feed(room, self.NEW)
            write_feed(room / "agency", {"trips.txt": "new"})
            settle(room, self.town)

    def test_all(self) -> None:
        self.replace()
        self.assertEqual(standing(self.town), self.after)
        self.assertEqual(os.listdir(self.room), ["town"])

    def test_each_step_that_fails_is_undone(self) -> None:
        """At each of its renames the disk fails once. A town of the old files stands, or one of the new."""
        rename, feed = os.rename, zip_feed(self.room / "feed.zip", demonstration())
        for number in range(1, 100):
            calls: list[tuple[Path, ...]] = []

            def fail(*paths: Path) -> None:
                calls.append(paths)
                if len(calls) == number:
                    raise OSError(28, "No space left on device", str(paths[0]))
                rename(*paths)

            with self.subTest(number), mock.patch("os.rename", fail), mock.patch("os.replace", fail):
                status, _, errors = self.desk("new", feed, self.town, "--replace")
                if len(calls) < number:
                    break
                self.assertEqual((status, standing(self.town)), (1, self.before))
                self.assertRegex(errors, "^desk: .*No space left on device\n$")
        self.assertGreater(number, self.STEPS - 5)
        self.assertEqual((errors, (self.town / "stop_times.txt").read_bytes()[:8]), ("", b"trip_id,"))

    def test_a_run_that_is_killed_is_undone_by_the_next_command(self) -> None:
        """After a kill before each rename, the next command finds the old town or the new one, and says so."""
        rename, told = os.rename, 0
        for number in range(1, self.STEPS + 1):
            child = os.fork()
            if child == 0:
                calls: list[tuple[Path, ...]] = []

                def end(*paths: Path) -> None:
                    calls.append(paths)
                    if len(calls) == number:
                        os.kill(os.getpid(), signal.SIGKILL)
                    rename(*paths)

                with mock.patch("os.rename", end), mock.patch("os.replace", end):
                    self.replace()
                os._exit(0)
            with self.subTest(number):
                self.assertEqual(os.waitpid(child, 0)[1], signal.SIGKILL)
                half = (self.town / BEFORE).exists()
                errors = self.desk("saved", self.town)[2]
                self.assertEqual(errors, f"desk: {self.town} stands as it was before a `./desk new` that was cut off\n" if half else "")
                self.assertEqual(standing(self.town), self.before)
                told += half
        self.assertGreater(told, 8)
        self.replace()
        self.assertEqual(standing(self.town), self.after)

    def test_a_list_that_leads_out_of_the_town(self) -> None:
        """Towns come from anybody. A list that `new` has not written is refused, and nothing is moved or removed by it."""
        write_feed(self.room / "mine", {"a.txt": "mine"})
        before = standing(self.room / "mine")
        for text in ('{"was": [], "made": ["../mine"]}', '{"was": [], "made": [".."]}', '{"was": [], "made": ["."]}', '{"was": [], "made": [""]}',
                     f'{{"was": ["{self.room}/mine"], "made": []}}', '{"was": [], "made": [7]}', '{"was": [], "made": "..a"}', '{"was": 7, "made": 7}', "[]", "{}", "x", '{"was": [], "made": ["a\\u0000"]}'):
            write_feed(self.town / BEFORE, {STEPS: text})
            with self.subTest(text):
                status, _, errors = self.desk("saved", self.town)
                self.assertEqual(status, 1)
                self.assertRegex(errors, "steps.json is none that `./desk new` writes: look what stands in ")
                self.assertEqual((standing(self.room / "mine"), (self.town / "edits.csv").read_text()), (before, "show\n"))
        shutil.rmtree(self.town / BEFORE)
        write_feed(self.room / "mine", {STEPS: '{"was": ["a.txt"], "made": []}'})
        (self.town / BEFORE).symlink_to(self.room / "mine")
        self.assertEqual(self.desk("saved", self.town)[0], 1)
        self.assertTrue((self.room / "mine" / "a.txt").is_file())

    def test_a_folder_in_the_place_of_a_file(self) -> None:
        """It is refused before anything is made, and what stands in it stays."""
        (self.town / "trips.txt").unlink()
        write_feed(self.town / "trips.txt", {"mine.txt": "mine"})
        before = standing(self.town)
        words = ("new", zip_feed(self.room / "feed.zip", demonstration()), self.town, "--replace")
        self.assertEqual(self.desk(*words), (1, "", f"desk: {self.town / 'trips.txt'} is a folder, and a file would stand there: move it away\n"))
        self.assertEqual(standing(self.town), before)


class OwnFiles(FolderTest):
    """What a planner has put into `agency/`."""

    def test_they_stay(self) -> None:
        town = self.room / "town"
        with mock.patch("desk.new.steps.today", return_value=FIRST_DAY):
            self.assertEqual(self.desk("new", zip_feed(self.room / "feed.zip", agency()), town)[0], 0)
            write_feed(town / "agency", {"my-notes.txt": "mine", "shapes.txt": "of the older feed"})
            write_feed(town / "agency" / "letters", {"monday.txt": "dear agency"})
            (town / "agency" / "link").symlink_to("nowhere")
            status, text, _ = self.desk("new", self.room / "feed.zip", town, "--replace")
        self.assertEqual(status, 0)
        self.assertIn("agency/letters, agency/link, agency/my-notes.txt: left as they were", text)
        self.assertEqual(sorted({*agency(), "letters", "link", "my-notes.txt"}), sorted(os.listdir(town / "agency")))
        self.assertEqual("mine", (town / "agency" / "my-notes.txt").read_text())
        self.assertEqual("dear agency", (town / "agency" / "letters" / "monday.txt").read_text())
        self.assertEqual("nowhere", os.readlink(town / "agency" / "link"))


class Rooms(FolderTest):
    """Rooms that killed runs have left beside a town."""

    def room_named(self, name: str, hours: float) -> Path:
        """A room with a file, made this long ago."""
        write_feed(self.room / name, {"trips.txt": "half"})
        os.utime(self.room / name, (time.time() - 3600 * hours,) * 2)
        return self.room / name

    def test_what_nobody_holds_is_removed(self) -> None:
        self.room_named(".town.new-abcd_123", 1)
        stay = [self.room_named(".town.new-just_now", 0), self.room_named(".town.new-backup-of-mine", 1), self.room_named(".other.new-abcd_123", 1),
                self.room_named(".town.backup01", 1)]
        held = self.room_named(".town.new-of_other", 1)
        number = os.open(held, os.O_RDONLY)
        self.addCleanup(os.close, number)
        fcntl.flock(number, fcntl.LOCK_EX)
        with town_room(self.room / "town", False) as room:
            self.assertEqual(new_mode(0o700), room.stat().st_mode & 0o777)
            self.assertEqual({path.name for path in [*stay, held, room]}, set(os.listdir(self.room)))
        self.assertEqual({path.name for path in [*stay, held]}, set(os.listdir(self.room)))
