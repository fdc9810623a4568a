"""Hints on files of any bytes: lines or none, and never an exception."""
from __future__ import annotations

import shutil
import unittest

from desk.hints.forms import COLUMNS, COMMANDS, KEYS
from desk.hints.runs import hints_before, hints_of
from tests.feeds import FolderTest, write_feed
from tests.test_hints import EDITS, refused_line
from tests.test_notes import CLEAN
from tests.test_notes_random import INPUTS, SEED, contents

OF_A_RECORD = ("too many fields", "duplicate", "same terminal", "same trip", "field not UTF-8", "block_id not UTF-8", "too many trips")
OF_A_TRIP = ("has too few stops", "has a sequence twice", "has no time at an end", "not forward")


def refusals(name: str) -> list[str]:
    """Refusals of a file as the program would tell them, rightly or not."""
    if name == "desk.toml":
        return ["desk.toml: not TOML", "desk.toml: missing", *(f"desk.toml: bad {key}" for key in (*KEYS, "layovr", "zone"))]
    columns = COLUMNS.get(name, ("x",))
    of_file = ["missing", "too long", "no header", "too many places", *(f"no column {column}" for column in columns),
               *(f"trip W1 {what}" for what in OF_A_TRIP)]
    of_record = [*OF_A_RECORD, *(text.format(column) for text in ("bad {}", "empty {}", "{} not UTF-8") for column in columns)]
    return [f"{name}: {what}" for what in of_file] + [f"{name} record {number}: {what}" for number in (0, 1, 3) for what in of_record]


class TestRandomBytes(FolderTest):
    """Hints on a town with a file of any bytes."""

    def test_each_file_of_any_bytes_gives_lines_or_none(self) -> None:
        scripts = "".join(refused_line(said).replace("record 1", f"{source} {number}") for source in ("record", "planner", "journal")
                          for number, (_, said, _) in enumerate(EDITS, 1))
        for number, name in enumerate(INPUTS):
            for case, content in enumerate(contents(SEED + number, CLEAN.get(name, "W1,cancel\n").encode())):
                with self.subTest(f"{name} {case}"):
                    town = str(write_feed(self.room / "town", CLEAN | {name: content}))
                    self.told(hints_before("keep", [town]) + hints_before("kept", [town]))
                    for said in refusals(name):
                        self.told(hints_of("blocks", [town], 3, f"feed refused: {said}\n"))
                    self.told(hints_of("planners", [town], 1, scripts))
                    for said in ("blocks.csv: missing", "prices.csv record 0: not in form", "blocks.csv record 2: not in form",
                                 "price of A to B too low"):
                        self.told(hints_of("check", [town], 4, f"no: {said}\n"))
                    for command in COMMANDS:
                        for status in (5, 6, 7, 8):
                            self.told(hints_of(command, [town], status, ""))
                    shutil.rmtree(town)

    def test_any_bytes_in_place_of_the_folder_give_lines_or_none(self) -> None:
        for case, content in enumerate(contents(SEED, b"PK\x03\x04" + bytes(400))):
            with self.subTest(case):
                path = self.room / "town.zip"
                path.write_bytes(content)
                for status in (3, 5, 6, 7):
                    self.told(hints_of("keep", [str(path)], status, "feed refused: trips.txt: missing\n"))

    def test_a_folder_of_any_name_gives_lines_or_none(self) -> None:
        for name in ("", "\0", "x" * 5000, "\udcff", "a\nb", "/", ".."):
            with self.subTest(name):
                self.told(hints_before("kept", [name]))
                for status in (1, 2, 3, 4, 5, 6, 7):
                    self.told(hints_of("blocks", [name], status, "feed refused: trips.txt: missing\n"))

    def told(self, hints: list[str]) -> None:
        """Judges hints: each is a line in words."""
        for hint in hints:
            self.assertIsInstance(hint, str)
            self.assertTrue(hint.strip())


if __name__ == "__main__":
    unittest.main()
