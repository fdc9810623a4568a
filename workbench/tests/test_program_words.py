"""The words of the program: the same bytes and the same status, its standard error passed on, and hints behind it."""
from __future__ import annotations

import contextlib
import io
import json
import os
import shutil
import signal
import subprocess
import sys
import unittest
import unittest.mock
from pathlib import Path

from desk import cli, program, program_words
from desk.hints.forms import COMMANDS
from desk.program import ROOT
from tests.feeds import DESK, FolderTest, needs_program, write_feed
from tests.test_notes import CLEAN

EXAMPLES = ROOT / "examples"
FAKE = """#!/bin/sh
printf '%b' '{errors}' >&2
printf '%b' '{text}'
exit {status}
"""


def run_desk(*words: str | Path, **options: object) -> subprocess.CompletedProcess[bytes]:
    """Runs `./desk` with these words as a process of its own."""
    return subprocess.run([sys.executable, DESK, *words], stdin=subprocess.DEVNULL, capture_output="stdout" not in options,
                          check=False, **options)


def written(folder: Path) -> dict[str, bytes]:
    """The files of a folder, but for the journal, whose database is another one each time."""
    return {path.name: path.read_bytes() for path in folder.iterdir() if path.is_file() and not path.name.startswith("journal")}


class TestAnyProgram(FolderTest):
    """What is passed on of a program, whatever it puts: here of one that puts what a test says."""

    def setUp(self) -> None:
        super().setUp()
        before = os.environ.get("BLOCKDESK")
        self.addCleanup(lambda: os.environ.pop("BLOCKDESK") if before is None else os.environ.update(BLOCKDESK=before))
        os.environ["BLOCKDESK"] = str(self.room / "fake")

    def fake(self, text: str = "", status: int = 0, errors: str = "", body: str | None = None) -> None:
        """Makes the program, with a text and errors in which `\\0377` is a byte."""
        path = self.room / "fake"
        path.write_text(FAKE.format(text=text, status=status, errors=errors) if body is None else body)
        path.chmod(0o755)

    def test_bytes_that_are_not_utf8(self) -> None:
        self.fake("caf\\0351 \\0377\\0000\\r\\nend")
        self.assertEqual(run_desk("blocks", self.room).stdout, b"caf\xe9 \xff\0\r\nend")

    def test_each_status(self) -> None:
        for status in range(9):
            with self.subTest(status):
                self.fake("text\\n", status)
                ran = run_desk("chart", self.room)
                self.assertEqual((ran.returncode, ran.stdout), (status, b"text\n"))

    def test_a_program_that_is_killed(self) -> None:
        self.fake(body="#!/bin/sh\nkill -9 $$\n")
        self.assertEqual(self.desk("blocks", self.room)[0], 128 + 9)

    def test_its_standard_error_comes_before_hints(self) -> None:
        self.fake("", 5, "blockdesk: read fault\\n")
        (self.room / "town").write_text("")
        ran = run_desk("blocks", self.room / "town")
        self.assertEqual(ran.stderr.decode().splitlines(),
                         ["blockdesk: read fault", f"desk: {self.room / 'town'} is a file. Give the folder of a feed."])

    def test_its_standard_error_is_passed_on_while_it_runs(self) -> None:
        self.fake(body="#!/bin/sh\necho proving >&2\nread line < \"$2/pipe\"\necho done\n")
        os.mkfifo(self.room / "pipe")
        words = [sys.executable, DESK, "blocks", self.room]
        with subprocess.Popen(words, stdout=subprocess.PIPE, stderr=subprocess.PIPE) as running:
            self.assertEqual(running.stderr.readline(), b"proving\n")
            self.assertIsNone(running.poll())
            (self.room / "pipe").write_text("go\n")
            self.assertEqual(running.communicate()[0], b"done\n")

    def test_ctrl_c_ends_the_program_too(self) -> None:
        self.fake(body="#!/bin/sh\necho $$ >&2\nexec sleep 60\n")
        with subprocess.Popen([DESK, "blocks", self.room], stdout=subprocess.PIPE, stderr=subprocess.PIPE,
                              preexec_fn=lambda: signal.signal(signal.SIGINT, signal.SIG_DFL)) as running:
            process = int(running.stderr.readline())
            running.send_signal(signal.SIGINT)
            self.assertEqual(running.wait(30), 1)
            self.assertEqual(running.stderr.readline(), b"desk: stopped\n")
        self.assertRaises(ProcessLookupError, os.kill, process, 0)

    def test_its_words_are_passed_on(self) -> None:
        self.fake(body='#!/bin/sh\nprintf "%s|" "$@"\n')
        for words in (["blocks", "a b"], ["kept"], ["sample", "007"], ["check", "a", "b"], ["sample", "-1"]):
            with self.subTest(words):
                self.assertEqual(self.desk(*words)[:2], (0, "".join(f"{word}|" for word in words)))

    def test_the_words_are_those_of_the_program(self) -> None:
        self.assertEqual(set(program_words.WORDS), {*COMMANDS, "sample"})

    def test_no_hint_stands_beside_an_accepted_feed(self) -> None:
        self.fake("text\\n", 0)
        self.assertEqual(run_desk("blocks", self.room / "nowhere").stderr, b"")

    def test_a_program_that_is_not_there(self) -> None:
        status, text, errors = self.desk("blocks", self.room)
        self.assertEqual((status, text), (1, ""))
        self.assertIn("cannot be run: No such file or directory", errors)

    def test_output_that_is_closed_or_full(self) -> None:
        self.fake("text\\n", 0)
        with open("/dev/full", "wb") as full:
            ran = run_desk("blocks", self.room, stdout=full, stderr=subprocess.PIPE)
        self.assertEqual((ran.returncode, ran.stderr), (6, b"desk: standard output cannot be written: No space left on device\n"))
        reader, writer = os.pipe()
        os.close(reader)
        with open(writer, "wb") as closed:
            ran = run_desk("blocks", self.room, stdout=closed, stderr=subprocess.PIPE)
        self.assertEqual((ran.returncode, ran.stderr), (6, b"desk: standard output cannot be written: Broken pipe\n"))

    def test_a_hint_is_one_line(self) -> None:
        self.fake("feed refused: trips.txt: missing\\n", 3)
        ran = run_desk("blocks", self.room / "two\nlines")
        self.assertEqual(ran.stderr.decode(), f"desk: there is no folder {self.room}/two\\nlines.\n")

    def test_a_mistake_in_the_hints_changes_nothing(self) -> None:
        self.fake("text\n", 3)
        out, errors = io.StringIO(), io.StringIO()
        broken = unittest.mock.patch.object(program_words, "hints_of", side_effect=IndexError("x"))
        with broken, contextlib.redirect_stdout(out), contextlib.redirect_stderr(errors):
            status = cli.main(["blocks", str(self.room)])
        self.assertEqual((status, out.getvalue()), (3, "text\n"))
        self.assertEqual(errors.getvalue(), "desk: no hint could be made, by a mistake of the workbench itself: IndexError: x\n")

    def test_what_kept_wrote_over_is_told_once_it_has(self) -> None:
        town = write_feed(self.room / "town", CLEAN | {"edits.csv": "cancel,W2\n"})
        for status in (0, 7):
            self.fake("kept 0 records\\n", status)
            errors = self.desk("kept", town)[2]
            self.assertEqual("there was no journal" in errors and "1 edit that the journal does not have" in errors, status == 0, errors)

    def test_json_of_a_text(self) -> None:
        self.fake("fixed 3, vehicles 2, minutes 10\\n")
        status, text, _ = self.desk("blocks", write_feed(self.room / "town", CLEAN), "--json")
        self.assertEqual(status, 0)
        self.assertEqual(json.loads(text), {"records": [], "fixed": 3, "vehicles": 2, "minutes": 10})

    def test_json_of_a_text_that_is_unknown(self) -> None:
        self.fake("fixed three\\n")
        status, text, errors = self.desk("blocks", write_feed(self.room / "town", CLEAN), "--json")
        self.assertEqual((status, text), (1, ""))
        self.assertIn("desk: the text of blocks", errors)

    def test_json_where_nothing_was_put(self) -> None:
        self.fake("", 7, "blockdesk: keeper fault\\n")
        self.assertEqual(self.desk("keep", self.room, "--json")[:2], (7, ""))


@needs_program
class TestTheProgram(FolderTest):
    """What the program itself answers, with `./desk` in front and without."""

    def both(self, command: str, feed: Path) -> tuple[program.Outcome, subprocess.CompletedProcess[bytes], tuple[Path, Path]]:
        """The answers of the program and of `./desk` for two copies of a feed, and the copies."""
        copies = self.room / "one" / "town", self.room / "other" / "town"
        for copy in copies:
            shutil.rmtree(copy, ignore_errors=True)
            shutil.copytree(feed, copy)
        alone, through = program.run([command, copies[0]]), run_desk(command, copies[1])
        return alone, through, copies

    def same(self, command: str, feed: Path) -> None:
        """Judges that text, status and files are the same."""
        alone, through, copies = self.both(command, feed)
        self.assertEqual((through.returncode, through.stdout), (alone.status, alone.text))
        self.assertEqual(*(written(copy) for copy in copies))

    def test_each_word_gives_the_same_text_status_and_files(self) -> None:
        for command in program_words.WORDS:
            if command != "sample":
                with self.subTest(command):
                    self.same(command, EXAMPLES / "edits")

    def test_samples_and_words_of_no_form_give_the_same_text(self) -> None:
        for words in (["sample", "4"], ["sample", "04"], ["blocks"], ["blocks", "a", "b"], ["sample"]):
            with self.subTest(words):
                alone, through = program.run(words), run_desk(*words)
                self.assertEqual((through.returncode, through.stdout), (alone.status, alone.text))

    def test_a_refused_feed_gives_the_same_text_and_a_hint(self) -> None:
        feed = write_feed(self.room / "feed", CLEAN | {"desk.toml": 'date = "2026-09-07"\n'})
        alone, through, _ = self.both("blocks", feed)
        self.assertEqual((through.returncode, through.stdout), (3, alone.text))
        self.assertIn(b"desk: desk.toml: `date` has other signs between its digits", through.stderr)

    def test_kept_without_a_journal_gives_the_same_text_and_a_hint(self) -> None:
        feed = write_feed(self.room / "feed", CLEAN)
        alone, through, copies = self.both("kept", feed)
        self.assertEqual((through.returncode, through.stdout), (0, b"kept 0 records\n"))
        self.assertEqual((alone.status, alone.text), (0, through.stdout))
        self.assertEqual((copies[1] / "edits.csv").read_bytes(), b"")
        self.assertIn(b"there was no journal in", through.stderr)

    def test_keep_twice_asks_first(self) -> None:
        feed = write_feed(self.room / "feed", CLEAN | {"edits.csv": "shift,W1,+1\ncancel,W9\n"})
        program.run(["keep", feed])
        kept = (feed / "journal.db").read_bytes()
        for answer in ("", "n\n", "what?\n"):
            with unittest.mock.patch("sys.stdin", io.StringIO(answer)):
                status, text, errors = self.desk("keep", feed)
            self.assertEqual((status, text, (feed / "journal.db").read_bytes()), (1, "", kept))
            self.assertIn("the journal has record 1 of edits.csv already, and `keep` does the same a second time", errors)
            self.assertIn("nothing was kept", errors)
        with unittest.mock.patch("sys.stdin", io.StringIO("y\n")):
            self.assertEqual(self.desk("keep", feed)[1].splitlines()[-1], "kept 2 records")
        with unittest.mock.patch("sys.stdin", None):
            self.assertEqual(self.desk("keep", feed)[:2], (1, ""))
            self.assertEqual(self.desk("keep", feed, "--yes")[:2], (1, "journal 2 records\nrecord 1: refused, W1: outside tolerance (+3)\n"
                                                                       "record 2: refused, W9: unknown trip\nkept 2 records\n"))

    def test_a_fault_gives_the_same_line_and_a_hint(self) -> None:
        feed = write_feed(self.room / "feed", CLEAN)
        (feed / "blocks.csv").mkdir()
        alone, through, copies = self.both("blocks", feed)
        self.assertEqual((through.returncode, through.stdout), (alone.status, b""))
        hint = f"desk: {copies[1] / 'blocks.csv'} cannot be written: a folder stands there. Move it away.\n"
        self.assertEqual(through.stderr, alone.errors + hint.encode())


if __name__ == "__main__":
    unittest.main()
