"""Notes and hints of a feed of 100 MB come in seconds, with little memory."""
from __future__ import annotations

import os
import subprocess
import sys
import unittest
from pathlib import Path

from desk.program import ROOT
from tests import test_new_large as large
from tests.feeds import FolderTest

FAKE = """#!/bin/sh
echo "feed refused: stop_times.txt: trip agency_trip_65980 not forward"
exit 3
"""
"""A program that refuses the feed for one of its last trips."""


class TestLargeFeed(FolderTest):
    """Time and memory of a run on a town of 100 MB, with some hundred terminals and a way between each two of them."""

    def setUp(self) -> None:
        super().setUp()
        self.town = self.room / "town"
        self.town.mkdir()
        large.write_large(self.town)
        (self.town / "desk.toml").write_text('date = "20300101"\nlayover = 5\n')
        (self.room / "fake").write_text(FAKE)
        (self.room / "fake").chmod(0o755)

    def measured(self, *words: str | Path) -> tuple[int, float, float, str]:
        """Runs the workbench: its status, the seconds of the processor, the most megabytes, and all that it puts."""
        with subprocess.Popen([sys.executable, "-c", large.MEASURED, *words], stdout=subprocess.PIPE, stderr=subprocess.STDOUT, text=True,
                              env={**os.environ, "PYTHONPATH": str(ROOT / "workbench"), "BLOCKDESK": str(self.room / "fake")}) as running:
            text = running.stdout.read()
            _, status, used = os.wait4(running.pid, 0)
            running.returncode = os.waitstatus_to_exitcode(status)
        return running.returncode, used.ru_utime + used.ru_stime, int(text.splitlines()[-1]) / 1024, text

    def test_notes_and_hints_of_100_megabytes(self) -> None:
        places = range(0, 1600, 4)
        large.write_lines(self.town / "deadheads.csv", "from,to,minutes",
                          (f"{start},{end},{1 + abs(start - end) // 40}" for start in places for end in places if start != end))
        for command, status, words in (("notes", 1, "no column `block_id`"), ("blocks", 3, "desk: stop_times.txt: trip")):
            with self.subTest(command):
                ended, seconds, megabytes, text = self.measured(command, self.town)
                self.assertEqual(ended, status)
                self.assertIn(words, text)
                self.assertLess(seconds, large.MOST_SECONDS)
                self.assertLess(megabytes, large.MOST_MEGABYTES)


if __name__ == "__main__":
    unittest.main()
