"""Notes of files of any bytes: words, and never a traceback."""
from __future__ import annotations

import random
import shutil
import unittest
from collections.abc import Iterator
from pathlib import Path

from desk.rooms import FEED_FILES, SCRIPTS
from tests.feeds import FolderTest, write_feed
from tests.test_notes import CLEAN

SEED = 20260907
INPUTS = (*FEED_FILES, *SCRIPTS, "stops.txt", "frequencies.txt", "journal.db", "blocks.csv", "prices.csv")
"""The files that are read by the notes and the hints."""

PIECES = (b",", b"\n", b'"', b"\r\n", b"=", b"[", b"]", b"{", b"-", b".", b" ", b"\x00", b"\xff", b"\xef\xbb\xbf", b"\xe2\x80\x9c", b"trip_id",
          b"stop_id", b"W1", b"Station", b"date", b"services", b"24:00:00", b"20260907", b"from,to,minutes\n", b"1e999",
          b"99999999999999999999", b"0x" + b"f" * 40, b"9" * 5000)


def contents(seed: int, right: bytes) -> Iterator[bytes]:
    """Contents of a file that are nothing, random bytes, random words of its kind, and its right content with random damage."""
    chance = random.Random(seed)
    yield b""
    yield b"\xef\xbb\xbf"
    yield chance.randbytes(2000)
    yield bytes(chance.choices(range(32, 127), k=500))
    yield b"".join(chance.choices(PIECES, k=300))
    for _ in range(4):
        damaged = bytearray(right)
        for _ in range(chance.randint(1, 6)):
            at = chance.randint(0, len(damaged))
            damaged[at:at + chance.randint(0, 4)] = chance.choice(PIECES) if chance.random() < 0.7 else chance.randbytes(3)
        yield bytes(damaged)


class TestRandomBytes(FolderTest):
    """Notes of a town with a file of any bytes."""

    def test_each_file_of_any_bytes_gives_words(self) -> None:
        for number, name in enumerate(INPUTS):
            right = CLEAN.get(name, "trip_id,start_time,end_time,headway_secs\nW1,6:00:00,7:00:00,600\n").encode()
            for case, content in enumerate(contents(SEED + number, right)):
                with self.subTest(f"{name} {case}"):
                    town = write_feed(self.room / "town", CLEAN | {name: content})
                    status, text, errors = self.desk("notes", town)
                    self.assertIn(status, (0, 1))
                    self.assertRegex(text, r"notes [0-9]+\n\Z")
                    self.assertNotIn("desk:", errors)
                    self.assertIn(self.desk("notes", town, "--json")[0], (0, 1))
                    shutil.rmtree(town)

    def test_a_folder_in_place_of_each_file_gives_words(self) -> None:
        for name in INPUTS:
            with self.subTest(name):
                town = write_feed(self.room / "town", {file: text for file, text in CLEAN.items() if file != name})
                (town / name).mkdir()
                self.assertIn(self.desk("notes", town)[0], (0, 1))
                shutil.rmtree(town)

    def test_any_bytes_in_place_of_the_folder_give_words(self) -> None:
        for case, content in enumerate(contents(SEED, b"PK\x03\x04" + bytes(400))):
            with self.subTest(case):
                path = Path(self.room / "town.zip")
                path.write_bytes(content)
                status, text, errors = self.desk("notes", path)
                self.assertEqual((status, text), (1, ""))
                self.assertIn(f"desk: {path} is a ", errors)


if __name__ == "__main__":
    unittest.main()
