"""From an agency's zip to the feed that is handed over, without a file by hand: two made agencies, with odd files."""
from __future__ import annotations

import csv
import io
import unittest
import zipfile
from pathlib import Path
from unittest import mock

from desk.plans import read_blocks
from desk.program import run
from tests.feeds import FolderTest, needs_program, zip_feed
from tests.made_agencies import BAD, DAY, LAYOVER, made_agency

SIZES = 1_742, 3_900
"""How many trips of the day the two agencies have."""


@needs_program
class MadeAgencies(FolderTest):
    """The steps from the zip to the zip."""

    def test_from_zip_to_zip(self) -> None:
        for trips in SIZES:
            with self.subTest(trips), mock.patch("desk.new.steps.today", return_value=DAY):
                self.check(trips, self.room / f"town{trips}", self.room / f"out{trips}.zip")

    def check(self, trips: int, town: Path, out: Path) -> None:
        """Takes the steps of one agency."""
        status, text, errors = self.desk("new", zip_feed(self.room / "agency.zip", made_agency(trips)), town, "--depot", "51.52,-1.22")
        self.assertEqual((status, errors), (1, ""))
        self.assertTrue(text.startswith(f"{town}: {trips:,} trips on Friday {DAY}, between "), text[:200])
        for name in BAD:
            self.assertIn(f"\n  {name}, service weekday: ", text)
        self.assertIn("calendar.txt: 1 record of commas alone left out", text)
        self.assertIn(f" {LAYOVER}; ", text.partition("desk.toml: a vehicle stays 5 minutes at each terminal but ")[2].partition("as `audit`")[0])
        self.assertIn("\npark,Park\n", (town / "terminals.csv").read_text())
        notes = self.desk("notes", town)[1]
        self.assertNotRegex(notes, "refused|no record of")
        self.assertEqual((self.desk("blocks", town)[::2], self.desk("check", town)[::2]), ((0, ""), (0, "")))
        audit = run(["audit", town])
        self.assertEqual(audit.status, 0, audit.text[-500:])
        status, text, errors = self.desk("publish", town, out)
        self.assertEqual((status, errors), (0, ""))
        self.assertIn(f"{trips:,} trips of the day in ", text)
        self.check_zip(trips, town, out)

    def check_zip(self, trips: int, town: Path, out: Path) -> None:
        """The zip has the agency's files, each trip of the day once in its planned block, and no repeated trip."""
        with zipfile.ZipFile(out) as archive:
            self.assertEqual(sorted(set(made_agency(300)) - {"frequencies.txt"}), sorted(archive.namelist()))
            rows = list(csv.DictReader(io.StringIO(archive.read("trips.txt").decode("utf-8-sig"))))
        day = [row for row in rows if row["service_id"] != "holiday"]
        planned = {trip: block.name for block in read_blocks(town / "blocks.csv") for trip in block.trips}
        self.assertEqual((trips, planned), (len(day), {row["trip_id"]: row["block_id"] for row in day}))
        self.assertEqual([], [row for row in rows if row["trip_id"] in (*BAD, "night")])


if __name__ == "__main__":
    unittest.main()
