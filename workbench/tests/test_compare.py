"""Tests of two plans side by side: what is the same, what differs, and what the program says of each."""
from __future__ import annotations

import unittest
from pathlib import Path
from typing import Any

from desk.compare.text import compare_text
from tests.feeds import FolderTest, needs_program, write_feed
from tests.small_town import plan, rows, small_town

FOUR_TRIPS = {
    "trips.txt": "route_id,service_id,trip_id,trip_headsign\n" + "".join(f"R,W,U{number},x\n" for number in range(1, 5)),
    "stop_times.txt": "trip_id,arrival_time,departure_time,stop_id,stop_sequence\n"
                      "U1,06:00:00,06:00:00,A,1\nU1,06:30:00,06:30:00,B,2\nU2,06:40:00,06:40:00,B,1\nU2,07:10:00,07:10:00,A,2\n"
                      "U3,06:10:00,06:10:00,C,1\nU3,06:50:00,06:50:00,D,2\nU4,07:00:00,07:00:00,D,1\nU4,07:40:00,07:40:00,C,2\n",
    "routes.txt": "route_id,route_short_name\nR,9\n",
    "desk.toml": "late = 9\n",
}
"""Two vehicles between A and B, and between C and D."""

COUNTS = ("neighbours", "stated_neighbours", "kept_neighbours", "line_changes", "waiting")
"""What is counted in both plans, as in the figures."""


@needs_program
class Compared(FolderTest):
    """Plans of small feeds, whose differences are written down by hand."""

    def town(self, name: str, files: dict[str, str] | None = None) -> Path:
        """A planned feed of four trips."""
        folder = write_feed(self.room / name, {**FOUR_TRIPS, **(files or {})})
        plan(folder)
        return folder

    def found(self, first: Path | str, second: Path | str, status: int = 0) -> dict[str, Any]:
        """What differs, and the text of it is the one that is printed."""
        found = self.answer("compare", first, second, status=status)
        self.assertEqual(self.desk("compare", first, second), (status, compare_text(found), ""))
        return found

    def test_a_plan_is_the_same_as_itself(self) -> None:
        town = self.town("town")
        found = self.found(town, town)
        self.assertEqual(found["same"], [{"first": "B1", "second": "B1"}, {"first": "B2", "second": "B2"}])
        self.assertEqual([found[name] for name in ("changed", "gone", "new")], [[], [], []])
        self.assertEqual(found["first"]["check"], {"refused": [], "verdict": "yes", "vehicles": 2, "minutes": 0})
        self.assertEqual(len(compare_text(found).splitlines()), 7)

    def test_a_block_that_is_gone_gives_the_other_its_name(self) -> None:
        found = self.found(self.town("town"), self.town("other", {"edits.csv": "cancel,U1\ncancel,U2\n"}))
        self.assertEqual((found["same"], found["trips"]["other_names"]), ([{"first": "B2", "second": "B1"}], 2))
        self.assertEqual(found["gone"], [{"block": "B1", "trips": [{"trip": "U1", "second": None}, {"trip": "U2", "second": None}]}])
        self.assertEqual([trip["trip"] for trip in found["trips"]["cancelled"]], ["U1", "U2"])
        text = compare_text(found)
        for line in ("the same blocks under other names\n B2 is now B1\n", " B1 is gone\n  no more: U1, cancelled\n",
                     "tell the depot\n B1 does not leave\n", " cancelled: line 9 06:00 from A to B (U1)\n"):
            self.assertIn(line, text)

    def test_shifted_extra_and_cancelled_trips(self) -> None:
        found = self.found(self.town("town"), self.town("other", {
            "edits.csv": "shift,U2,+2\nextra,E1,A,B,08:00,08:30\ncancel,U3\ncancel,U4\nextra,E2,C,A,05:00,05:30\n"}))
        trips = found["trips"]
        self.assertEqual((trips["both"], trips["in_other_blocks"], trips["other_neighbours"], trips["other_names"]), (2, [], 0, 0))
        self.assertEqual(trips["moved"], [{"trip": "U2", "line": "9", "departs": "06:42", "from": "B", "to": "A", "minutes": 2, "departed": "06:40"}])
        self.assertEqual(sorted((trip["trip"], trip["line"], trip["departs"], trip["from"], trip["to"]) for trip in trips["new"]),
                         [("E1", "", "08:00", "A", "B"), ("E2", "", "05:00", "C", "A")])
        self.assertEqual(found["changed"], [{
            "first": "B1", "second": "B1", "leaves": ["06:00", "05:00"], "ends": ["07:10", "08:30"], "lost": [], "moved": ["U2"],
            "gained": [{"trip": "E2", "first": None}, {"trip": "E1", "first": None}]}])
        text = compare_text(found)
        for line in (" B1 leaves the depot at 05:00, was 06:00\n", " B1 ends its last trip at 08:30, was 07:10\n", " B2 does not leave\n",
                     " +2 min: line 9 06:42 from B to A (U2), was 06:40\n", " new: 08:00 from A to B (E1)\n", "  at another time: U2\n"):
            self.assertIn(line, text)

    def test_neighbours_and_waiting_of_both(self) -> None:
        """U1 and U2 are of one line and of one stated block. U2 waits ten minutes, as U4 does, and twelve where it is shifted. Of a
        plan to which `check` says no the neighbours are counted too, and a misfit is no wait."""
        trips = "route_id,service_id,trip_id,block_id\nR,W,U1,x\nR,W,U2,x\nR,W,U3,y\nS,W,U4,y\n"
        town = self.town("town", {"trips.txt": trips})
        other = self.town("other", {"trips.txt": trips, "edits.csv": "cancel,U4\nshift,U2,+2\n"})
        found = self.found(town, other)
        counts = [[found[side][name] for name in COUNTS] for side in ("first", "second")]
        self.assertEqual(counts, [[2, 2, 2, 1, 20], [1, 1, 1, 0, 12]])
        for line in ("neighbours that the feed states: 2 of 2 were kept, 1 of 1 are\n", "changes of line: 1 were, 0 are\n",
                     "waiting: 0:20 was, 0:12 is\n"):
            self.assertIn(line, compare_text(found))
        blocks = self.room / "mine.csv"
        blocks.write_text("block_id,trip_id,deadhead\nX,U1,0\nX,U2,3\nX,U4,0\nY,U3,0\nY,U5,0\n")
        found = self.found(town, blocks, 1)
        self.assertEqual([found["second"][name] for name in COUNTS], [3, 2, 1, 2, 7])

    def test_a_trip_in_another_block(self) -> None:
        town = self.town("town")
        blocks = self.room / "mine.csv"
        blocks.write_text("block_id,trip_id,deadhead\nX,U1,0\nX,U2,0\nX,U4,0\nY,U3,0\n")
        found = self.found(town, blocks, 1)
        self.assertEqual(found["second"]["check"]["verdict"], "no")
        self.assertIn("U4 does not fit", found["second"]["check"]["reason"])
        self.assertEqual(found["trips"]["in_other_blocks"], [{"trip": "U4", "first": "B2", "second": "X"}])
        self.assertEqual([(block["first"], block["second"]) for block in found["changed"]], [("B1", "X"), ("B2", "Y")])
        self.assertEqual(found["changed"][0]["gained"], [{"trip": "U4", "first": "B2"}])
        self.assertEqual(found["changed"][1]["lost"], [{"trip": "U4", "second": "X"}])
        self.assertIn(": no: blocks.csv record 3: U4 does not fit\n", compare_text(found))

    def test_a_saved_version_by_its_name_its_folder_and_its_file(self) -> None:
        town = self.town("town")
        self.desk("save", town, "before")
        (town / "edits.csv").write_text("cancel,U1\n")
        plan(town)
        for other in ("before", town / "saved" / "before", town / "saved" / "before" / "blocks.csv"):
            found = self.found(town, other)
            self.assertEqual([trip["trip"] for trip in found["trips"]["new"]], ["U1"])
            self.assertEqual(found["second"]["check"]["verdict"], "yes")
        self.assertEqual([trip["trip"] for trip in self.found("before", town)["trips"]["cancelled"]], ["U1"])

    def test_what_cannot_be_compared(self) -> None:
        town = self.town("town")
        other = self.town("other", {"desk.toml": 'date = "20260907"\n', "calendar_dates.txt": "service_id,date,exception_type\nW,20260907,1\n"})
        for first, second, why in ((town, other, "is of no date and .* of 2026-09-07"), (town, self.room / "nowhere", "nowhere is not there$"),
                                   (town, "none", "none is not there$"), (self.room, town, "blocks.csv is not there: .*blocks")):
            with self.subTest(why=why):
                status, out, errors = self.desk("compare", first, second)
                self.assertEqual((status, out), (1, ""))
                self.assertRegex(errors.removesuffix("\n"), f"^desk: .*{why}")
        (other / "blocks.csv").write_text("block_id,trip_id\n")
        self.assertRegex(self.desk("compare", other, other)[2], "no column deadhead")


@needs_program
class SmallTown(FolderTest):
    """The small town before and after a script, compared a second way by its files."""

    def test_by_the_files(self) -> None:
        town, other = small_town(self.room / "town"), small_town(self.room / "other", "cancel,wd_1_i_0625\nshift,wd_3_i_0850,+1\n")
        for folder in (town, other):
            plan(folder)
        found = self.answer("compare", town, other)
        was, now = ({row["trip_id"]: row["block_id"] for row in rows(folder / "blocks.csv")} for folder in (town, other))
        self.assertEqual(found["trips"]["both"], len(set(was) & set(now)))
        partner = {pair["first"]: pair["second"] for pair in found["same"] + found["changed"]}
        self.assertEqual({trip["trip"] for trip in found["trips"]["in_other_blocks"]},
                         {trip for trip in set(was) & set(now) if partner.get(was[trip]) != now[trip]})
        self.assertEqual(found["trips"]["other_names"], sum(was[trip] != now[trip] for trip in set(was) & set(now)))
        self.assertEqual(len(partner) + len(found["gone"]), len(set(was.values())))
        self.assertEqual(len(partner) + len(found["new"]), len(set(now.values())))
        beside = [{trip: next((other for other in order[at + 1:] if block[other] == block[trip]), None) for at, trip in enumerate(order)}
                  for block in (was, now) for order in ([trip for trip in block if trip in was and trip in now],)]
        others = {trip for trip in beside[0] if beside[0][trip] != beside[1][trip]}
        self.assertEqual(found["trips"]["other_neighbours"], len(others | {after[trip] for after in beside for trip in others} - {None}))
        self.assertGreater(found["trips"]["other_neighbours"], 0)
        orders = [{}, {}]
        for order, folder in zip(orders, (town, other)):
            for row in rows(folder / "blocks.csv"):
                order.setdefault(row["block_id"], []).append((row["trip_id"], row["deadhead"]))
        shifted = now["wd_3_i_0850"]
        figures = [self.answer("figures", folder) for folder in (town, other)]
        for side, of_side in zip(("first", "second"), figures):
            self.assertEqual([found[side][name] for name in COUNTS], [of_side[name] for name in COUNTS])
        self.assertEqual({(pair["first"], pair["second"]) for pair in found["same"]},
                         {(old, new) for old, trips in orders[0].items() for new, others in orders[1].items()
                          if trips == others and new != shifted})


class Words(unittest.TestCase):
    """The text of what no plan of the program shows here."""

    def test_a_block_with_other_empty_running(self) -> None:
        side = {"check": {"verdict": "yes", "vehicles": 1, "minutes": 5}, "blocks": 1, "stated_neighbours": 0, "kept_neighbours": 0,
                "line_changes": 0, "waiting": 0}
        text = compare_text({
            "first": {"plan": "a", **side}, "second": {"plan": "b", **side},
            "trips": {"both": 1, "in_other_blocks": [], "other_neighbours": 0, "other_names": 0, "moved": [],
                      "cancelled": [], "new": []}, "same": [], "gone": [],
            "changed": [{"first": "B1", "second": "B2", "leaves": ["05:50", "05:55"], "ends": ["07:00", "07:00"],
                         "lost": [], "gained": [], "moved": []}],
            "new": [{"block": "B3", "leaves": "06:00", "ends": "07:00", "trips": [{"trip": "U1", "first": "B1"}]}]})
        self.assertIn(" B1 (now B2)\n  the same trips in another order, or with other empty running\n", text)
        self.assertIn(" B1 (now B2) leaves the depot at 05:55, was 05:50\n", text)
        self.assertIn(" B3 is new\n  new: U1, was B1\n", text)
        self.assertIn(" B3 leaves at 06:00, and ends its last trip at 07:00\n", text)


if __name__ == "__main__":
    unittest.main()
