"""Tests of the plan that is read from `blocks.csv` and `boards.csv`, and of what refuses it."""
from __future__ import annotations

import random
import unittest
from pathlib import Path
from unittest import mock

from desk import program
from desk.answers import ask
from desk.errors import DeskError
from desk.plans import Block, read_blocks, read_boards, read_plan
from desk.town import Town
from tests.feeds import FolderTest, needs_program
from tests.small_town import plan, rows, small_town, two_trips


class Files(FolderTest):
    """The two files alone."""

    def blocks(self, text: str | bytes) -> Path:
        """A `blocks.csv` with this text."""
        path = self.room / "blocks.csv"
        path.write_bytes(text if isinstance(text, bytes) else text.encode())
        return path

    def test_blocks_in_form(self) -> None:
        found = read_blocks(self.blocks('\ufeffdeadhead,trip_id,block_id,note\r\n 007 ,"a, b",B1,x\r\n0,c,B1\r\n12,d,B2\r\n'))
        self.assertEqual([(block.name, block.trips, block.deadheads) for block in found],
                         [("B1", ("a, b", "c"), (7, 0)), ("B2", ("d",), (12,))])

    def test_blocks_that_are_refused(self) -> None:
        head = "block_id,trip_id,deadhead\n"
        for text, why in (("", "no header"), ("block_id,trip_id\nB1,U1\n", "no column deadhead"), (head + "B1,U1,x\n", "record 1: not in form"),
                          (head + "B1,U1,-1\n", "record 1: not in form"), (head + "B1,U1,1234567\n", "record 1: not in form"),
                          (head + "B1,U1,0\n,U2,0\n", "record 2: not in form"), (head + "B1,,0\n", "record 1: not in form"),
                          (head + "B1,U1,0\nB2,U2,0\nB1,U3,0\n", "record 3: block B1 ended"), (head + "B1,U1,0,1\n", "record 1: too many fields")):
            with self.subTest(text=text), self.assertRaisesRegex(DeskError, why):
                read_blocks(self.blocks(text))

    def test_boards_that_are_refused(self) -> None:
        head = "block_id,kind,trip_id,from,leaves,to,arrives\n"
        for record, why in (("B1,trip,U1,A,6:00,B,06:30", "not in form"), ("B1,trip,,A,06:00,B,06:30", "not in form"),
                            ("B1,dh,U1,A,06:00,B,06:30", "not in form"), ("B1,walk,,A,06:00,B,06:30", "not in form"),
                            ("B1,trip,U1,A,06:00,B,06:30,x", "too many fields")):
            path = self.room / "boards.csv"
            path.write_text(head + record + "\n")
            with self.subTest(record=record), self.assertRaisesRegex(DeskError, f"record 1: {why}"):
                read_boards(path)


@needs_program
class OfATown(FolderTest):
    """The plan of a folder that the program has planned."""

    def test_two_trips(self) -> None:
        feed = two_trips(self.room / "feed")
        plan(feed)
        found = read_plan(Town(feed))
        self.assertEqual((found.vehicles, found.minutes, found.refused), (1, 45, 0))
        block = found.blocks[0]
        self.assertEqual((block.name, block.vehicle_class, block.leaves, block.home, block.returns), ("B1", None, 350, 15, 465))
        first, second = block.rides
        self.assertEqual((first.start, first.departs, first.end, first.arrives, first.layover, first.shift), ("A", 360, "B", 390, 0, 0))
        self.assertEqual((second.empty_from, second.empty, second.departs, second.ends), ("B", 20, 420, 450))
        self.assertEqual([(ride.name, since) for ride, since in block.waits()], [("U2", 410)])

    def test_shifts_layovers_classes_and_an_extra_trip(self) -> None:
        feed = two_trips(self.room / "feed", {
            "desk.toml": 'late = 9\nlayover = 3\n[layovers]\nA = 7\n[classes]\nR = "big"\n',
            "edits.csv": "shift,U1,+4\nshift,U1,+3\nshift,U1,+9\nextra,E1,A/big,B/big,07:40,08:00\n"})
        plan(feed)
        found = read_plan(Town(feed))
        self.assertEqual((found.vehicles, found.refused), (1, 1))
        self.assertEqual(found.blocks[0].vehicle_class, "big")
        self.assertEqual([(ride.name, ride.start, ride.departs, ride.arrives, ride.layover, ride.shift, ride.trip is None)
                          for ride in found.blocks[0].rides],
                         [("U1", "A/big", 367, 397, 3, 7, False), ("U2", "C/big", 420, 450, 7, 0, False), ("E1", "A/big", 460, 480, 3, 0, True)])

    def test_the_small_town_by_its_files(self) -> None:
        feed = small_town(self.room / "town")
        plan(feed)
        found = read_plan(Town(feed))
        stated, boards = rows(feed / "blocks.csv"), rows(feed / "boards.csv")
        self.assertEqual([(block.name, ride.name, str(ride.empty)) for block in found.blocks for ride in block.rides],
                         [(row["block_id"], row["trip_id"], row["deadhead"]) for row in stated])
        self.assertEqual([ride.name for block in found.blocks for ride in block.rides],
                         [row["trip_id"] for row in boards if row["kind"] == "trip"])
        said = program.run(["blocks", feed]).text.decode()
        self.assertEqual(said, f"fixed 11, vehicles {found.vehicles}, minutes {found.minutes}\n")

    def test_a_refused_feed_and_a_file_in_place_of_the_folder(self) -> None:
        feed = two_trips(self.room / "feed", {"deadheads.csv": "from,to\n"})
        with self.assertRaisesRegex(DeskError, "feed refused: deadheads.csv: no column minutes"):
            read_plan(Town(feed))
        with self.assertRaisesRegex(DeskError, "read fault|feed refused"):
            read_plan(Town(feed / "trips.txt"))

    def test_a_plan_without_trips(self) -> None:
        feed = two_trips(self.room / "feed", {"desk.toml": "services = []\n"})
        plan(feed)
        self.assertEqual(read_plan(Town(feed)).blocks, ())


@needs_program
class NotOfOnePlan(FolderTest):
    """What is refused: files that are missing, damaged, of two plans, or of a feed that has changed."""

    def setUp(self) -> None:
        super().setUp()
        self.feed = two_trips(self.room / "feed", {"desk.toml": "layover = 2\nlate = 5\n"})
        plan(self.feed)

    def refuse(self, why: str) -> None:
        """The plan must be refused for this reason."""
        with self.assertRaisesRegex(DeskError, why):
            read_plan(Town(self.feed))

    def change(self, name: str, old: str, new: str) -> None:
        """Changes a file of the feed."""
        text = (self.feed / name).read_text()
        self.assertIn(old, text)
        (self.feed / name).write_text(text.replace(old, new))

    def read_or_refuse(self, whole: tuple[Block, ...]) -> None:
        """The plan must be the whole one, or be refused in words."""
        try:
            found = read_plan(Town(self.feed)).blocks
        except DeskError as error:
            self.assertTrue(str(error))
        else:
            self.assertEqual(found, whole)

    def test_missing_files(self) -> None:
        (self.feed / "boards.csv").unlink()
        self.refuse("boards.csv is not in .*joined")
        (self.feed / "blocks.csv").unlink()
        self.refuse("check says no: blocks.csv: missing.*blocks")

    def test_damaged_blocks(self) -> None:
        for old, new, why in (("B1,U1,10", "B1,U1,11", "blocks.csv record 1: minutes 11, not 10"), ("U2", "U3", "unknown trip U3"),
                              ("B1,U2,20\n", "", "trip U2 missing"), ("B1,U2,20", "B1,U2", "record 2: not in form")):
            with self.subTest(new=new):
                before = (self.feed / "blocks.csv").read_text()
                self.change("blocks.csv", old, new)
                self.refuse(f"check says no: .*{why}")
                (self.feed / "blocks.csv").write_text(before)

    def test_boards_of_another_plan(self) -> None:
        self.change("boards.csv", "B1,trip,U2", "B2,trip,U2")
        self.refuse("not of one plan.*other blocks")
        self.change("boards.csv", "B2,trip,U2", "B1,trip,U9")
        self.refuse("not of one plan.*block B1 differs")

    def test_boards_with_other_deadheads(self) -> None:
        self.change("boards.csv", "B1,dh,,B,06:32,C,06:52", "B1,dh,,B,06:32,C,06:53")
        self.refuse("not of one plan.*block B1 differs")
        self.change("boards.csv", "B1,dh,,B,06:32,C,06:53\n", "")
        self.refuse("not of one plan.*block B1 differs")

    def test_boards_that_do_not_join(self) -> None:
        self.change("boards.csv", "B1,dh,,B,06:32,C,06:52", "B1,dh,,B,06:33,C,06:53")
        self.refuse("does not follow")
        self.change("boards.csv", "B1,dh,,B,06:33,C,06:53", "B1,dh,,X,06:32,C,06:52")
        self.refuse("does not follow")

    def test_a_feed_that_has_changed(self) -> None:
        (self.feed / "edits.csv").write_text("shift,U2,+3\n")
        self.refuse("trip U2 has other times")
        (self.feed / "edits.csv").unlink()
        (self.feed / "terminals.csv").write_text("stop_id,terminal\nA,Ayton\n")
        (self.feed / "depot.csv").write_text("terminal,pull_out,pull_in\nAyton,10,15\nC,7,0\n")
        self.refuse("trip U1 runs between other places")

    def test_a_layover_that_has_changed_with_the_times(self) -> None:
        self.change("desk.toml", "layover = 2", "layover = 1")
        self.change("stop_times.txt", "06:29:10,06:29:10", "06:30:10,06:30:10")
        self.change("stop_times.txt", "07:30:00", "07:31:00")
        found = read_plan(Town(self.feed))
        self.assertEqual([ride.layover for ride in found.blocks[0].rides], [1, 1])

    def test_a_plan_after_a_script_is_one_or_is_refused(self) -> None:
        feed = small_town(self.room / "town", "cancel,sc_S_o_0825\nundo\ncancel,wd_1_i_0625\nshift,wd_3_i_0850,+1\n")
        plan(feed)
        one = [(row["block_id"], row["trip_id"]) for row in rows(feed / "blocks.csv")]
        other = [(row["block_id"], row["trip_id"]) for row in rows(feed / "boards.csv") if row["kind"] == "trip"]
        if one == other:
            self.assertEqual(len(read_plan(Town(feed)).blocks), len({block for block, _ in one}))
        else:
            with self.assertRaisesRegex(DeskError, "not of one plan"):
                read_plan(Town(feed))

    def test_any_damage_is_refused_in_words_or_changes_nothing(self) -> None:
        chance = random.Random(3)
        whole = read_plan(Town(self.feed)).blocks
        answers = {command: ask(command, Town(self.feed)) for command in ("check", "fixed")}
        for name, turns in (("boards.csv", 400), ("blocks.csv", 8)):
            original = (self.feed / name).read_bytes()
            # The program does not read boards.csv, so its answers stay the same.
            same = name == "boards.csv"
            with mock.patch("desk.plans.ask", (lambda command, _: answers[command]) if same else ask):
                for _ in range(turns):
                    (self.feed / name).write_bytes(damaged(original, chance))
                    self.read_or_refuse(whole)
            (self.feed / name).write_bytes(original)


def damaged(content: bytes, chance: random.Random) -> bytes:
    """The content of a file with a few of its bytes changed."""
    found = bytearray(content)
    for _ in range(chance.randint(1, 3)):
        at = chance.randrange(len(found))
        found[at:at + chance.randint(0, 2)] = chance.choice([b"", b"\n", b",", b'"', b"1", bytes([chance.randrange(256)])])
    return bytes(found)


if __name__ == "__main__":
    unittest.main()
