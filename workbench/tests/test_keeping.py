"""Keep from the page: what the journal has already is not kept again."""
from __future__ import annotations

import os
import resource
import signal
import sqlite3
import subprocess
import sys
import time
import unittest
from contextlib import closing
from pathlib import Path
from unittest import mock

from desk import keeping, program
from desk.hints.journal import journal_text
from desk.locks import LOCK
from desk.open.session import Session
from desk.scripts import Record, fields_of
from desk.town import Town
from tests.feeds import FolderTest, needs_program
from tests.small_town import two_trips

KEEP = "import sys; from pathlib import Path; from desk.open.session import Session; Session(Path(sys.argv[1])).keep({})"
"""Keeps from the page of a town."""

KEPT: list[tuple[str, tuple[str, ...], str | None]] = [
    ("cancel,A\nshift,B,1\n", (), "cancel,A\nshift,B,1\n"),
    ("cancel,A\nshift,B,1\n", ("cancel,A", "shift,B,+1"), None),
    ("cancel,A\nshow\nshift,B,1\nundo\n", ("cancel,A", "shift,B,+1"), "undo\n"),
    ("shift,B,1\n", ("cancel,A", "shift,B,+1"), None),
    ("shift,B,1\nextra,E,A,B,7:05,08:00\n", ("cancel,A", "shift,B,+1"), "extra,E,A,B,7:05,08:00\n"),
    ("cancel,C\nshift,B,1\n", ("cancel,A", "shift,B,+1"), "cancel,C\nshift,B,1\n"),
    ("", ("cancel,A",), ""),
]
"""A script, the lines of the journal, and the script on which `keep` is run; None where it is not run."""


@needs_program
class KeepingTest(FolderTest):
    """A script beside a journal."""

    def test_what_is_new_is_kept(self) -> None:
        """The day before has left `cancel,A` in the journal. The script that follows on it is new but for what was kept of it."""
        for text, lines, wanted in KEPT:
            with self.subTest(text, kept=lines):
                self.journal(lines)
                script = self.room / "edits.csv"
                script.write_text(text)
                records = [Record(fields, True, "") for fields in fields_of("edits.csv", text.encode())]
                ran: list[str] = []

                def tell(command: str, town: Path, room: Path | None = None) -> str:
                    """Says what `keep` would read, and where it would write. The planner's script is whole meanwhile."""
                    folder = town if room is None else room
                    self.assertEqual((command, script.read_text()), ("keep", text))
                    self.assertEqual((folder / "journal.db").resolve(), (self.room / "journal.db").resolve())
                    ran.append((folder / "edits.csv").read_text())
                    return "kept\n"

                with mock.patch.object(keeping, "tell", tell):
                    said = keeping.keep(Town(self.room), records)
                self.assertEqual((ran, said), ([], keeping.NOTHING) if wanted is None else ([wanted], "kept\n"))
                self.assertEqual(sorted(path.name for path in self.room.iterdir()), ["edits.csv", "journal.db"])

    def test_a_keep_that_is_killed_leaves_the_script_whole(self) -> None:
        """Whatever signal ends the page while the program keeps, the script is as it was, and nothing stands beside it."""
        town = two_trips(self.room / "town", {"edits.csv": "cancel,U1\n"})
        program.run(["keep", town])
        (town / "edits.csv").write_text("cancel,U1\ncancel,U2\n")
        before = {path.name for path in town.iterdir()}
        slow = self.room / "slow"
        slow.write_text(f'#!/bin/sh\nif [ "$1" = keep ]; then touch {self.room}/keeps; exec sleep 20; fi\nexec "{program.program_path()}" "$@"\n')
        slow.chmod(0o755)
        for end in (signal.SIGHUP, signal.SIGTERM, signal.SIGKILL):
            (self.room / "keeps").unlink(missing_ok=True)
            with self.subTest(end), subprocess.Popen([sys.executable, "-c", KEEP, town], cwd=program.ROOT / "workbench",
                                                     env={**os.environ, "BLOCKDESK": str(slow)}) as running:
                until = time.monotonic() + 60
                while not (self.room / "keeps").exists() and time.monotonic() < until:
                    time.sleep(0.01)
                self.assertTrue((self.room / "keeps").exists())
                running.send_signal(end)
                running.wait(60)
                self.assertEqual((town / "edits.csv").read_text(), "cancel,U1\ncancel,U2\n")
                self.assertEqual({path.name for path in town.iterdir()} - {LOCK}, before)
        self.assertEqual(Session(town).keep({})["said"], "journal 1 records\nrecord 1: ok\nkept 2 records\n")

    def test_a_first_keep_that_is_killed(self) -> None:
        """A journal that a killed run has left without its table has no records, as the program says, and is kept into."""
        for most in (0, 1, 40, 41, 100, 4095, 4096, 8192, 100_000, 266_295):
            with self.subTest(bytes=most):
                town = two_trips(self.room / str(most), {"edits.csv": "cancel,U1\n"})
                limit = lambda: resource.setrlimit(resource.RLIMIT_FSIZE, (most, most))  # pylint: disable=cell-var-from-loop
                ran = subprocess.run([program.program_path(), "keep", town], capture_output=True, check=False, preexec_fn=limit)
                self.assertEqual(ran.returncode, -signal.SIGXFSZ)
                self.assertTrue((town / "journal.db").is_file())
                self.assertEqual(keeping.journal_records(Town(town)), [])
                self.assertNotIn("journal.db", self.desk("notes", town)[1])
                self.assertEqual(Session(town).keep({})["said"], "journal 0 records\nrecord 1: ok\nkept 1 records\n")

    def test_a_database_of_something_else_has_no_records(self) -> None:
        """The program puts its table into it, and so it is no fault of a planner."""
        with closing(sqlite3.connect(self.room / "journal.db")) as database, database:
            database.execute("CREATE TABLE other(x)")
        self.assertEqual(keeping.journal_records(Town(self.room)), [])

    def test_what_is_read_is_what_the_program_reads(self) -> None:
        """A line of a journal is as the program has it, and the journal and what stands beside it are as before."""
        self.journal(('cancel,"a, b"', "\ufeffshow", "x\ny"))
        before = (self.room / "journal.db").read_bytes()
        self.assertEqual(journal_text(self.room / "journal.db").decode(), 'cancel,"a, b"\n\ufeffshow\nx\ny\n')
        self.assertEqual([path.name for path in self.room.iterdir()], ["journal.db"])
        self.assertEqual((self.room / "journal.db").read_bytes(), before)

    def journal(self, lines: tuple[str, ...]) -> None:
        """Makes the journal with these lines."""
        path = self.room / "journal.db"
        path.unlink(missing_ok=True)
        with closing(sqlite3.connect(path)) as database, database:
            database.execute("CREATE TABLE journal(seq INTEGER PRIMARY KEY, line TEXT NOT NULL)")
            database.executemany("INSERT INTO journal(line) VALUES (?)", [(line,) for line in lines])


if __name__ == "__main__":
    unittest.main()
