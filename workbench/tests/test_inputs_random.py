"""A planned town with files of any bytes: boards, figures, pages, comparisons and versions are made of it, or an error says why not."""
from __future__ import annotations

import random
import shutil
import unittest
from pathlib import Path

from tests.feeds import FolderTest, needs_program
from tests.small_town import plan, two_trips

SEED, CASES = 57, 25

STOPS = "stop_id,stop_name,stop_lat,stop_lon\nA,Ay,52.1,1.0\nB,Bee,52.1,1.1\nC,Cee,52.1,1.2\n"

PUT = (b",", b'"', b"\n", b"\r", b"\0", b"\xff", b"-", b"9", b"@", b"[", b"{", b"=")
"""What is put between the bytes of a file."""


@needs_program
class RandomInputs(FolderTest):
    """Each command on towns that are damaged."""

    def setUp(self) -> None:
        super().setUp()
        self.whole = two_trips(self.room / "whole", {"desk.toml": "late = 5\n", "edits.csv": "shift,U2,+1\n", "stops.txt": STOPS,
                                                     "tolerances.csv": "trip_id,early,late\nU1,1,2\n"})
        plan(self.whole)
        self.assertEqual(self.desk("save", self.whole, "v1")[0], 0)

    def damaged(self, chosen: random.Random) -> Path:
        """The town with some of its files damaged, or of other bytes."""
        town = self.room / "town"
        shutil.rmtree(town, ignore_errors=True)
        shutil.copytree(self.whole, town)
        files = sorted(path for path in town.rglob("*") if path.is_file())
        for path in chosen.sample(files, chosen.choice((1, 1, 2))):
            content = bytearray(path.read_bytes())
            for _ in range(chosen.randrange(1, 5)):
                at = chosen.randrange(len(content) + 1)
                content[at:at + chosen.choice((0, 0, 1, 20))] = chosen.choice((*PUT, chosen.randbytes(6)))
            path.write_bytes(content if chosen.random() < 0.85 else chosen.randbytes(400))
        return town

    def test_each_command_ends_in_words(self) -> None:
        statuses: set[int] = set()
        for case in range(CASES):
            town = self.damaged(random.Random(SEED + case))
            for words in (("boards", town), ("boards", town, "--csv"), ("figures", town), ("page", town), ("compare", self.whole, town),
                          ("compare", town / "blocks.csv", self.whole), ("saved", town), ("saved", town, "v1", "--replace")):
                with self.subTest(case, words=words):
                    status, text, errors = self.desk(*words)
                    self.assertIn(status, (0, 1))
                    self.assertNotIn("a mistake of the workbench", errors)
                    self.assertTrue(status == 0 or text or errors)
                    statuses.add(status)
        self.assertEqual(statuses, {0, 1})


if __name__ == "__main__":
    unittest.main()
