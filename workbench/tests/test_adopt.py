"""The plan that becomes the stated one: what is written, that nothing else changes, how it is taken back, and what is refused."""
from __future__ import annotations

import unittest
from pathlib import Path
from unittest import mock

from desk.answers import tell
from desk.program import run
from tests.feeds import FolderTest, demonstration, files_of, needs_program, write_feed, zip_feed
from tests.made_periods import with_dates_alone
from tests.small_town import plan, rows, small_town, two_trips

SCRIPT = "shift,wd_3_i_0850,+1\ncancel,sc_S_o_0825\nextra,E1,Station,Oakfield,10:00,10:20\n"

TIED = {
    "trips.txt": "route_id,service_id,trip_id,block_id\n" + "".join(f"R,W,U{number},today\n" for number in range(1, 5)),
    "stop_times.txt": "trip_id,arrival_time,departure_time,stop_id,stop_sequence\n"
                      "U1,06:00:00,06:00:00,A,1\nU1,06:30:00,06:30:00,B,2\nU2,06:00:00,06:00:00,C,1\nU2,06:30:00,06:30:00,B,2\n"
                      "U3,06:40:00,06:40:00,B,1\nU3,07:00:00,07:00:00,A,2\nU4,06:40:00,06:40:00,B,1\nU4,07:00:00,07:00:00,C,2\n",
}
"""Two trips that end in one place, and two that leave it then: either vehicle may make either of them."""


@needs_program
class AdoptTest(FolderTest):
    """The blocks in the feed of a town."""

    def setUp(self) -> None:
        super().setUp()
        self.town = self.room / "town"
        self.trips = self.town / "trips.txt"

    def adopt(self, *words: str) -> tuple[int, str, str]:
        """Runs the command."""
        return self.desk("adopt", self.town, *words)

    def files(self) -> dict[str, bytes]:
        """The files of the town."""
        return files_of(self.town)

    def refused(self, words: str, *more: str) -> None:
        """Nothing is written, for this reason."""
        files = self.files()
        status, text, errors = self.adopt(*more)
        self.assertEqual((status, text), (1, ""))
        self.assertIn(words, errors)
        self.assertEqual(files, self.files())

    def test_the_plan_of_a_script(self) -> None:
        """Each trip of the plan has its block. A cancelled one has none, trips of other days keep theirs, and all else stays."""
        small_town(self.town, SCRIPT)
        plan(self.town)
        before = self.files()
        was, planned = rows(self.trips), {row["trip_id"]: row["block_id"] for row in rows(self.town / "blocks.csv")}
        status, text, errors = self.adopt()
        self.assertEqual((status, errors), (0, ""))
        self.assertEqual(text.splitlines(), [
            f"{self.trips} states the plan by block_id: 187 trips in 10 blocks",
            f"{self.town}/trips_before_1.txt is trips.txt as it was: `./desk adopt {self.town} --back` puts it back",
            "extra trips are not in trips.txt, and so have no block_id: E1"])
        for row, old in zip(rows(self.trips), was, strict=True):
            runs = old["service_id"] in ("weekday", "school")
            self.assertEqual(row, old | {"block_id": planned.get(old["trip_id"], "") if runs else old["block_id"]})
        after = self.files()
        self.assertEqual(after, before | {"trips.txt": after["trips.txt"], "trips_before_1.txt": before["trips.txt"]})
        self.assertEqual(self.adopt()[1].splitlines()[0], f"{self.trips} states these blocks already: 187 trips in 10 blocks")
        self.assertEqual(self.desk("notes", self.town)[1].count("trips_before"), 0)

    def test_the_plan_is_least_and_keeps_all(self) -> None:
        small_town(self.town)
        plan(self.town)
        self.assertEqual(self.adopt()[0], 0)
        self.assertEqual(run(["audit", self.town]).text.splitlines()[-1], b"least")
        plan(self.town)
        self.assertIn("\nneighbours that the feed states 178, kept 178\n", self.desk("figures", self.town)[1])

    def test_back_step_by_step(self) -> None:
        small_town(self.town)
        texts = [self.trips.read_bytes()]
        for script in ("", SCRIPT):
            write_feed(self.town, {"edits.csv": script})
            plan(self.town)
            self.assertEqual(self.adopt()[0], 0)
            texts.append(self.trips.read_bytes())
        self.assertEqual(len(set(texts)), 3)
        for text in (texts[1], texts[0]):
            self.assertEqual(self.adopt("--back"), (0, f"{self.trips} is as it was before the last adopt\n", ""))
            self.assertEqual(self.trips.read_bytes(), text)
        self.refused("trips_before_1.txt is not in", "--back")

    def test_the_files_of_the_agency_stay(self) -> None:
        """Repeated trips have blocks in the town alone. A new feed brings the agency's blocks again, and is not taken back."""
        self.desk("new", zip_feed(self.room / "demo.zip", demonstration()), self.town)
        plan(self.town)
        agency = files_of(self.town / "agency")
        self.assertEqual(self.adopt()[0], 0)
        self.assertEqual(files_of(self.town / "agency"), agency)
        self.assertTrue(all(row["block_id"] for row in rows(self.trips) if row["service_id"] == "FULLW"))
        feed = demonstration()
        feed["trips.txt"] += "AB,FULLW,AB3,to Bullfrog,0,1\n"
        feed["stop_times.txt"] += "AB3,13:00:00,13:00:00,BEATTY_AIRPORT,1\nAB3,13:10:00,13:10:00,BULLFROG,2\n"
        text = self.desk("new", zip_feed(self.room / "newer.zip", feed), self.town, "--more")[1]
        self.assertIn("trips.txt: it has the blocks of the agency again, and no more those of `./desk adopt`",
                      " ".join(text.split()))
        self.refused("is of another feed than trips.txt, which was made anew since: take it away", "--back")

    def test_a_file_without_blocks(self) -> None:
        """The column comes at the end, and goes again."""
        two_trips(self.town)
        plan(self.town)
        before = self.trips.read_bytes()
        self.assertEqual(self.adopt()[0], 0)
        self.assertEqual([row["block_id"] for row in rows(self.trips)], ["B1", "B1"])
        self.assertEqual((self.adopt("--back")[0], self.trips.read_bytes()), (0, before))

    def test_a_refused_record_is_told(self) -> None:
        two_trips(self.town, {"edits.csv": "cancel,X\n"})
        plan(self.town)
        status, text, errors = self.adopt()
        self.assertEqual((status, errors), (1, "desk: edits.csv: record 1: refused, X: unknown trip\n"))
        self.assertIn("2 trips in 1 block\n", text)

    def test_blocks_that_are_not_preferred(self) -> None:
        two_trips(self.town, {"desk.toml": 'prefer = ["line"]\n'})
        plan(self.town)
        status, text, errors = self.adopt()
        self.assertEqual(errors, 'desk: `prefer` of desk.toml has no "stated", so plans do not stay near these blocks\n')
        self.assertEqual((status, text.splitlines()[0]), (0, f"{self.trips} states the plan by block_id: 2 trips in 1 block"))

    def test_what_is_no_plan(self) -> None:
        write_feed(self.town, TIED)
        self.refused("blocks.csv is not in")
        plan(self.town)
        planned = {row["trip_id"]: row["block_id"] for row in rows(self.town / "blocks.csv")}
        other = {"U1": "U4", "U2": "U3"} if planned["U1"] == planned["U3"] else {"U1": "U3", "U2": "U4"}
        write_feed(self.town, {"blocks.csv": "block_id,trip_id,deadhead\n" + "".join(
            f"B{number},{trip},0\n" for number, pair in enumerate(other.items(), 1) for trip in pair)})
        self.assertEqual(self.desk("check", self.town)[0], 0, "it is as good as the program's")
        self.refused("blocks.csv has another plan than the one that the program writes: `./desk blocks")
        write_feed(self.town, {"blocks.csv": "block_id,trip_id,deadhead\nB1,U1,0\n"})
        self.refused("check says no: ")
        write_feed(self.town, {"edits.csv": "".join(f"cancel,U{number}\n" for number in range(1, 5))})
        plan(self.town)
        self.refused("no trip runs, so there is no plan")
        self.refused("trips_before_1.txt is not in", "--back")
        self.trips.unlink()
        self.refused("trips.txt is not in")

    def test_days(self) -> None:
        self.make_period(self.town, with_dates_alone())
        self.desk("plan", self.town)
        self.refused(f"{self.town} has days: on each of them a trip may be in another block")
        self.town, folder = self.town / "days" / "sat", self.town
        self.refused(f"{folder} has days: on each of them a trip may be in another block")

    def test_what_does_not_read_back_is_not_written(self) -> None:
        small_town(self.town)
        plan(self.town)
        for was, comes, words in ((b"wd_1_o_0540", b"wd_1_o_0541", "trips.txt would differ by more than its blocks"),
                                  (b",V1\n", b",V2\n", "blocks.csv has another plan than the one that the program writes")):
            def written(command: str, folder: Path, room: Path, was: bytes = was, comes: bytes = comes) -> str:
                """What the program writes, with a change."""
                text = tell(command, folder, room)
                (room / "trips_blocks.txt").write_bytes((room / "trips_blocks.txt").read_bytes().replace(was, comes))
                return text

            with mock.patch("desk.adopt.tell", written):
                self.refused(words)
        with mock.patch("desk.adopt.state_of", side_effect=["one", "other"]):
            self.refused("nothing is written: the files of the town changed meanwhile")


if __name__ == "__main__":
    unittest.main()
