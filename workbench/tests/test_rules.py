"""What each rule of pairs costs, as the program says it with all rules, with none, and without each one."""
from __future__ import annotations

import unittest
from pathlib import Path

from tests.feeds import FolderTest, needs_program, table, write_feed
from tests.small_town import two_trips

PAIRS = "before,after,rule\n"


def crossing(folder: Path) -> Path:
    """Two trips that end at X and at Y at 06:30, and two that depart from there at 07:00, with ways of 5 and 7 minutes between."""
    ends = {"P1": ("A", 6, "X"), "P2": ("A", 6, "Y"), "Q1": ("X", 7, "A"), "Q2": ("Y", 7, "A")}
    return write_feed(folder, {
        "trips.txt": table("service_id,trip_id", [("W", name) for name in ends]),
        "stop_times.txt": table("trip_id,arrival_time,departure_time,stop_id,stop_sequence", [
            (name, time, time, stop, number) for name, (start, hour, end) in ends.items()
            for number, (stop, time) in enumerate(((start, f"{hour:02}:00:00"), (end, f"{hour:02}:30:00")), 1)]),
        "deadheads.csv": "from,to,minutes\nX,Y,5\nY,X,7\n"})


@needs_program
class TestRules(FolderTest):
    """The command on small feeds."""

    def rules(self, town: Path, *records: str) -> str:
        """What the command says of a town with these records."""
        write_feed(town, {"pairs.csv": PAIRS + "".join(f"{line}\n" for line in records)})
        status, text, errors = self.desk("rules", town)
        self.assertEqual((status, errors), (0, ""))
        return text

    def test_a_vehicle(self) -> None:
        """With the deadhead between them one vehicle makes both trips, and out, empty and home take 45 minutes. Two take 7 + 10 + 15."""
        self.assertEqual(self.rules(two_trips(self.room / "town"), "U1,U2,never", "U2,U1,never", "U1,U9,never"), (
            "with all rules vehicles 2, minutes 32; with none vehicles 1, minutes 45\n"
            'record 1: "U1" to "U2" never: costs 1 vehicle, without it vehicles 1, minutes 45\n'
            'record 2: "U2" to "U1" never: costs nothing\nrecord 3: "U1" to "U9" never: costs nothing\n'))

    def test_minutes(self) -> None:
        """Where one pair is forbidden, both vehicles run empty."""
        town = crossing(self.room / "town")
        self.assertEqual(self.rules(town, "P1,Q1, never "), (
            "with all rules vehicles 2, minutes 12; with none vehicles 2, minutes 0\n"
            'record 1: "P1" to "Q1" never: costs 12 minutes, without it vehicles 2, minutes 0\n'))
        self.assertEqual(self.answer("rules", town), {
            "all": {"vehicles": 2, "minutes": 12}, "none": {"vehicles": 2, "minutes": 0}, "rules": [
                {"record": 1, "before": "P1", "after": "Q1", "rule": "never", "without": {"vehicles": 2, "minutes": 0}}]})

    def test_two_rules_of_which_one_is_enough(self) -> None:
        """Either keep alone makes both vehicles run empty, so neither costs anything beside the other."""
        self.assertEqual(self.rules(crossing(self.room / "town"), "P1,Q2,keep", "P2,Q1,keep").splitlines()[1:], [
            'record 1: "P1" to "Q2" keep: costs nothing', 'record 2: "P2" to "Q1" keep: costs nothing'])

    def test_the_timetable_after_the_script(self) -> None:
        town = crossing(self.room / "town")
        write_feed(town, {"edits.csv": "cancel,Q1\n"})
        self.assertEqual(self.rules(town, "P1,Q1,keep"), (
            "with all rules vehicles 2, minutes 0; with none vehicles 2, minutes 0\n"
            'record 1: "P1" to "Q1" keep: costs nothing\n'))

    def test_the_town_stays_as_it_was(self) -> None:
        town = two_trips(self.room / "town")
        self.rules(town, "U1,U2,never")
        self.assertFalse((town / "blocks.csv").exists())
        self.assertEqual((town / "pairs.csv").read_text(), PAIRS + "U1,U2,never\n")

    def test_a_refused_feed(self) -> None:
        town = write_feed(two_trips(self.room / "town"), {"pairs.csv": PAIRS + "U1,U1,keep\n"})
        status, text, errors = self.desk("rules", town)
        self.assertEqual((status, text), (1, ""))
        self.assertIn("feed refused: pairs.csv record 1: same trip\n", errors)
        self.assertIn('"U1" stands in `before` and in `after`', errors)

    def test_no_rules_and_days(self) -> None:
        town = two_trips(self.room / "town")
        self.assertEqual(self.desk("rules", town), (1, "", f"desk: pairs.csv is not in {town}: there are no rules\n"))
        self.make_period(self.room / "period", {"calendar_dates.txt": "service_id,date,exception_type\nW,20260907,1\n", **{
            name: (town / name).read_text() for name in ("trips.txt", "stop_times.txt")}})
        self.assertIn(f"{self.room / 'period'} has days: name one of them, as `./desk rules {self.room / 'period'}/days/",
                      self.desk("rules", self.room / "period")[2])


if __name__ == "__main__":
    unittest.main()
