"""A named pipe, a device, or a link to one in the place of a file: it is refused by its name, and nothing waits for it."""
from __future__ import annotations

import os
import signal
from pathlib import Path

from desk.errors import DeskError
from desk.files import read_bytes
from desk.records import open_records
from tests.feeds import FolderTest, demonstration, needs_program, write_feed, zip_feed
from tests.small_town import plan, two_trips

MOST_SECONDS = 60
"""What waits for longer is ended, and is a failure."""


def make_pipe(path: Path) -> str:
    """A named pipe."""
    os.mkfifo(path)
    return "a named pipe"


def link_pipe(path: Path) -> str:
    """A link to a named pipe."""
    os.mkfifo(path.parent / "elsewhere")
    path.symlink_to("elsewhere")
    return "a link to a named pipe"


def link_device(path: Path) -> str:
    """A link to a device without an end."""
    path.symlink_to("/dev/zero")
    return "a link to a device"


class PipeTest(FolderTest):
    """A test that ends where a command waits."""

    def setUp(self) -> None:
        super().setUp()

        def end(*unused: object) -> None:
            raise AssertionError(f"a command waited for more than {MOST_SECONDS} seconds")

        before = signal.signal(signal.SIGALRM, end)
        self.addCleanup(signal.signal, signal.SIGALRM, before)
        self.addCleanup(signal.alarm, 0)
        signal.alarm(MOST_SECONDS)

    def refused(self, path: Path, kind: str, *words: str | Path) -> None:
        """A command refuses a file by its name."""
        self.assertEqual(self.desk(*words), (1, "", f"desk: {path} is {kind}, and a file would stand there: move it away\n"))


@needs_program
class Towns(PipeTest):
    """A town with such a thing, before each command."""

    def test_each_command(self) -> None:
        town, other = two_trips(self.room / "town"), two_trips(self.room / "other")
        feed = zip_feed(self.room / "feed.zip", demonstration())
        plan(town)
        path = town / "tolerances.csv"
        kind = make_pipe(path)
        for words in (("blocks", town), ("check", town), ("keep", town), ("kept", town), ("planners", town), ("fixed", town, "--json"),
                      ("notes", town), ("boards", town), ("figures", town), ("page", town), ("open", town), ("save", town, "v"),
                      ("saved", town), ("compare", town, other), ("compare", other, town), ("new", feed, town, "--replace")):
            with self.subTest(words[0]):
                self.refused(path, kind, *words)

    def test_each_file(self) -> None:
        for number, name in enumerate(("desk.toml", "trips.txt", "stop_times.txt", "calendar.txt", "deadheads.csv", "edits.csv", "planner_edits.csv",
                                       "blocks.csv", "prices.csv", "boards.csv", "trips_blocks.txt", "journal.db", "journal.db-wal", "routes.txt",
                                       "agency/stops.txt", ".desk.lock")):
            town = two_trips(self.room / str(number) / "town")
            (town / "agency").mkdir()
            (town / name).unlink(missing_ok=True)
            kind = (make_pipe, link_pipe, link_device)[number % 3](town / name)
            with self.subTest(name, kind=kind):
                self.refused(town / name, kind, "blocks", town)
                self.refused(town / name, kind, "notes", town)

    def test_what_is_no_file_of_a_town_is_nobodys_concern(self) -> None:
        town = two_trips(self.room / "town")
        make_pipe(town / "pipe")
        (town / "calendar_dates.txt").mkdir()
        self.assertEqual(self.desk("blocks", town)[0], 5)
        (town / "calendar_dates.txt").rmdir()
        self.assertEqual(self.desk("blocks", town)[0], 0)


class Elsewhere(PipeTest):
    """Files that are no files of a town."""

    def test_reading(self) -> None:
        for make in (make_pipe, link_device):
            path = self.room / make.__name__
            kind = make(path)
            for read in (read_bytes, lambda path: open_records(path).__enter__()):
                with self.assertRaisesRegex(DeskError, f"{path} is {kind}"):
                    read(path)

    def test_feeds(self) -> None:
        (self.room / "pipes").mkdir()
        for make in (make_pipe, link_pipe, link_device):
            path = self.room / "pipes" / make.__name__
            self.refused(path, make(path), "new", path, self.room / "town")
        folder = write_feed(self.room / "folder", demonstration())
        (folder / "stops.txt").unlink()
        self.refused(folder / "stops.txt", make_pipe(folder / "stops.txt"), "new", folder, self.room / "town")
        self.refused(Path("/dev/zero"), "a device", "new", "/dev/zero", self.room / "town")
        self.assertFalse((self.room / "town").exists())

    def test_a_version(self) -> None:
        (self.room / "saved" / "one").mkdir(parents=True)
        for name in ("blocks.csv", "prices.csv", "check.txt"):
            (self.room / "saved" / "one" / name).write_text("")
        path = self.room / "saved" / "one" / "edits.csv"
        self.refused(path, make_pipe(path), "saved", self.room, "one")
