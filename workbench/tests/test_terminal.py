"""What a feed says is shown on a terminal and not obeyed, and is put byte for byte where there is none."""
from __future__ import annotations

import os
import pty
import subprocess
from pathlib import Path

from desk.program import run
from tests.feeds import DESK, FolderTest, needs_program
from tests.small_town import plan, two_trips

NAME = "U1\x1b]0;title\x07\x1b[2J\x9b31m"
"""A name that would set the title of a terminal, clear it, and change its colour."""


@needs_program
class Terminals(FolderTest):
    """A town with such a name."""

    def setUp(self) -> None:
        super().setUp()
        files = {name: (two_trips(self.room / "plain") / name).read_text().replace("U1", NAME) for name in ("trips.txt", "stop_times.txt")}
        self.town = two_trips(self.room / "town", {**files, "routes.txt": f"route_id,route_short_name\nR,{NAME}\n"})
        plan(self.town)

    def on_terminal(self, *words: str | Path) -> bytes:
        """What a command puts on a terminal."""
        ours, theirs = pty.openpty()
        with subprocess.Popen([DESK, *words], stdin=subprocess.DEVNULL, stdout=theirs, stderr=theirs) as running:
            os.close(theirs)
            parts = []
            try:
                while part := os.read(ours, 65_536):
                    parts.append(part)
            except OSError:  # So a terminal ends whose other side is closed.
                pass
            os.close(ours)
            self.assertIn(running.wait(60), (0, 1))
        return b"".join(parts)

    def test_each_command(self) -> None:
        shown = b"U1\\x1b]0;title\\x07\\x1b[2J\\x9b31m"
        (self.town / "edits.csv").write_text(f"cancel,{NAME}\n")
        self.desk("save", self.town, "v")
        for words in (["fixed", self.town], ["fixed", self.town, "--json"], ["figures", self.town], ["boards", self.town, "--csv"], ["notes", self.town],
                      ["compare", self.town, "v"], ["blocks", self.town], ["saved", self.town]):
            (self.town / "edits.csv").write_text("")
            plan(self.town)
            with self.subTest(words[0]):
                put = self.on_terminal(*words)
                self.assertEqual([], [byte for byte in put.replace(b"\r\n", b"\n") if byte < 32 and byte != 10 or 128 <= byte < 160], put[:200])
        self.assertIn(shown, self.on_terminal("fixed", self.town))

    def test_what_is_no_terminal_gets_the_bytes(self) -> None:
        for command in ("fixed", "chart", "deficits"):
            put = subprocess.run([DESK, command, self.town], stdin=subprocess.DEVNULL, capture_output=True, check=True).stdout
            self.assertEqual(put, run([command, self.town]).text)
        self.assertIn(NAME.encode(), run(["fixed", self.town]).text)
