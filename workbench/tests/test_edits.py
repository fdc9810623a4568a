"""The writer of scripts: records, the lock, and kills at any time."""
from __future__ import annotations

import os
import random
import signal
import time
from collections.abc import Callable

from desk.edits import record_of, writing
from desk.errors import DeskError, UsageError
from desk.locks import LOCK
from desk.scripts import Record, fields_of, standing, with_show
from tests.feeds import FolderTest

KILLS = 100
RECORDS = 60


class RecordTest(FolderTest):
    """The record of an edit."""

    def test_forms(self) -> None:
        """Each edit has its record, with a shift's sign, and quotes only where they are needed."""
        for edit, record in (
                ({"edit": "shift", "trip": "U1", "shift": 5}, b"shift,U1,+5\n"),
                ({"edit": "shift", "trip": "U,1", "shift": -12}, b'shift,"U,1",-12\n'),
                ({"edit": "cancel", "trip": 'say "U"'}, b'cancel,"say ""U"""\n'),
                ({"edit": "restore", "trip": " \u00fc\nx"}, b'restore," \xc3\xbc\nx"\n'),
                ({"edit": "extra", "trip": "E", "from": "A", "to": "B", "departs": "7:05", "arrives": "07:40"},
                 b"extra,E,A,B,7:05,07:40\n"),
                ({"edit": "undo", "trip": "passed over"}, b"undo\n"), ({"edit": "redo"}, b"redo\n")):
            self.assertEqual(record_of(edit, None), record)
        self.assertEqual(record_of({"edit": "undo"}, "ann, b"), b'"ann, b",undo\n')

    def test_no_edits(self) -> None:
        """What is no edit, or has fields of another kind, is refused before the program is asked."""
        for edit in ({}, {"edit": "show"}, {"edit": ["cancel"]}, {"edit": "cancel"}, {"edit": "cancel", "trip": 7},
                     {"edit": "shift", "trip": "U1", "shift": "5"}, {"edit": "shift", "trip": "U1", "shift": True},
                     {"edit": "shift", "trip": "U1", "shift": 1.5}, {"edit": "cancel", "trip": "\ud800"}):
            with self.assertRaises(UsageError):
                record_of(edit, None)
        with self.assertRaises(UsageError):
            record_of({"edit": "redo"}, "ann")


class ScriptTest(FolderTest):
    """What is read of a script, and what is put behind it."""

    def test_append(self) -> None:
        """A record begins on a line of its own, whatever stands before it, and nothing else changes."""
        path = self.room / "edits.csv"
        for before, after in (
                (None, b"undo\n"), (b"", b"undo\n"), (b"cancel,U1", b"cancel,U1\nundo\n"), (b"undo\r", b"undo\rundo\n"),
                (b"cancel,U1\r\n", b"cancel,U1\r\nundo\n"), (b"\xef\xbb\xbfcancel,\xff\n", b"\xef\xbb\xbfcancel,\xff\nundo\n")):
            path.unlink(missing_ok=True)
            if before is not None:
                path.write_bytes(before)
            with writing(path) as script:
                script.append(b"undo\n")
            self.assertEqual(path.read_bytes(), after)
        self.assertEqual(sorted(left.name for left in self.room.iterdir()), [LOCK, "edits.csv"])

    def test_fields(self) -> None:
        """Records are read as the program reads them."""
        script = b"\xef\xbb\xbf cancel ,U1,,\r\n\r\nshift,\"U,\n2\",+1\n \n\"\"\nundo"
        self.assertEqual(fields_of("edits.csv", script), [("cancel", "U1"), ("shift", "U,\n2", "+1"), ("",), ("",), ("undo",)])
        self.assertEqual(with_show(b"undo"), b"undo\nshow\n")

    def test_standing(self) -> None:
        """Undo and redo take the last edit; refused records and shows change nothing."""
        words = ["cancel,A", "cancel,B", "undo", "show", "cancel,C refused", "undo", "redo", "shift,D,+1", "redo refused",
                 "cancel,E", "undo"]
        records = [Record(tuple(word.split(" ")[0].split(",")), " " not in word, "") for word in words]
        done, undone = standing(records)
        self.assertEqual([record.text for record in done], ["cancel,A", "shift,D,+1"])
        self.assertEqual([record.text for record in undone], ["cancel,E"])

    def test_unwritable(self) -> None:
        """A folder that is not there is an error in words."""
        with self.assertRaisesRegex(DeskError, "cannot be made"), writing(self.room / "nowhere" / "edits.csv"):
            self.fail("there is no folder to write into")


class KillTest(FolderTest):
    """Writers that end at any time."""

    def in_child(self, work: Callable[[], None]) -> int:
        """Does something in a process of its own, and gives the process."""
        child = os.fork()
        if child == 0:
            try:
                work()
            finally:
                os._exit(0)
        return child

    def kill(self, child: int) -> None:
        """Kills a process."""
        os.kill(child, signal.SIGKILL)
        os.waitpid(child, 0)

    def test_killed_a_hundred_times(self) -> None:
        """The script is at any time the one before a record or the one after it, and its lock is free once its holder is gone."""
        path = self.room / "edits.csv"
        records = [f"cancel,trip {number:04}\n".encode() for number in range(RECORDS)]
        states = {b"".join(records[:number]) for number in range(RECORDS + 1)}
        draw = random.Random(3)
        seen = set()

        def write_all() -> None:
            for record in records:
                with writing(path) as script:
                    script.append(record)

        for _ in range(KILLS):
            path.write_bytes(b"")
            child = self.in_child(write_all)
            time.sleep(draw.uniform(0.0, 0.04))
            self.kill(child)
            found = path.read_bytes()
            self.assertIn(found, states)
            seen.add(found)
            with writing(path, wait=0) as script:
                self.assertEqual(script.content, found)
            self.assertEqual(sorted(left.name for left in self.room.iterdir() if left.name != LOCK), ["edits.csv"])
        self.assertGreater(len(seen), 3, "the kills came at one moment only")

    def test_lock(self) -> None:
        """A second writer waits, and reads who writes; after the first is killed it writes."""
        path = self.room / "edits.csv"

        def hold() -> None:
            with writing(path) as script:
                script.append(b"cancel,held\n")
                time.sleep(60)

        child = self.in_child(hold)
        until = time.monotonic() + 30
        while not path.exists() and time.monotonic() < until:
            time.sleep(0.01)
        with self.assertRaisesRegex(DeskError, "another `./desk` is writing"), writing(path, wait=0.1):
            self.fail("two writers hold one lock")
        self.kill(child)
        with writing(path, wait=0) as script:
            script.append(b"undo\n")
        self.assertEqual(path.read_bytes(), b"cancel,held\nundo\n")
