"""The plan of a period: what the program says of each day type, the fleet, and runs on several machines."""
from __future__ import annotations

import json
import os
import shutil
import subprocess
import sys
import unittest
from pathlib import Path

from desk.plans import read_blocks
from tests.feeds import DESK, FolderTest, files_of, needs_program, write_feed
from tests.made_periods import with_a_night_line, with_dates_alone, with_night_and_school
from tests.small_town import two_trips


def spread(lines: list[str], folder: Path) -> None:
    """Runs lines as commands in a folder, two at a time: by `parallel` where it is there, else by `xargs`."""
    words = ["parallel", "-j2"] if shutil.which("parallel") else ["xargs", "-P2", "-I{}", "sh", "-c", "{}"]
    subprocess.run(words, input="\n".join(lines) + "\n", text=True, cwd=folder, check=True, stdout=subprocess.DEVNULL)


@needs_program
class PlanTest(FolderTest):
    """Towns with days, and one of one day."""

    def setUp(self) -> None:
        super().setUp()
        self.town = self.room / "town"
        self.make_period(self.town, with_dates_alone())

    def test_every_day_type_and_the_fleet(self) -> None:
        status, text, errors = self.desk("plan", self.town)
        self.assertEqual((status, errors), (0, ""), text)
        lines = text.splitlines()
        self.assertEqual(lines[0], f"{self.town}: 5 day types")
        self.assertEqual(lines[2].split(), ["Friday", "11", "68", "4", "0", "3", "0", "yes", "0", "of", "57", "0", "of", "60"])
        self.assertEqual(lines[-1], "fleet: 3 vehicles, on Friday; today 4, on Friday")
        for day in (self.town / "days").iterdir():
            stated = ["stated.csv"] if day.name in ("fri", "24-dec") else []
            self.assertEqual(sorted(path.name for path in day.iterdir()),
                             ["blocks.csv", "boards.csv", "desk.toml", "plan.json", "prices.csv", *stated])
            verdict = self.desk("check", day)[1]
            said = json.loads((day / "plan.json").read_text())
            self.assertEqual(verdict, f"yes, vehicles {said['least']['vehicles']}, minutes {said['least']['minutes']}\n")
            self.assertEqual(self.desk("figures", day)[0], 0)

    def test_what_is_refused(self) -> None:
        """A record, a day type of which the program refuses the feed, and today's blocks that cannot be run are told."""
        write_feed(self.town / "days" / "fri", {"edits.csv": "cancel,nothing\n"})
        write_feed(self.town / "days" / "sat", {"deadheads.csv": "from,to,minutes\nAbbey,Abbey,3\n"})
        write_feed(self.town / "days" / "sun", {"desk.toml": 'date = "20261011"\nlayover = 40\n'})
        status, text, errors = self.desk("plan", self.town)
        self.assertEqual((status, errors), (1, ""))
        self.assertIn("days/fri: record 1: refused, nothing: unknown trip\n", text)
        self.assertIn("days/sat: feed refused: deadheads.csv record 1: same terminal\n", text)
        self.assertIn("days/sun: today's blocks cannot be run: 8 pairs of trips do not fit, the first ", text)
        self.assertIn("fleet: not known, since 1 day type of 5 has no plan\n", text)
        answer = self.answer("plan", self.town, "--gather", status=1)
        found = answer["towns"][0]
        self.assertEqual([day["folder"] for day in found["days"] if "error" in day], ["days/sat"])

    def test_a_plan_of_other_files_is_not_reported(self) -> None:
        self.desk("plan", self.town)
        self.assertEqual(self.desk("plan", self.town, "--gather")[0], 0)
        write_feed(self.town / "days" / "fri", {"edits.csv": "cancel,fri_1_0_1157\n"})
        (self.town / "days" / "sat" / "blocks.csv").write_text("")
        (self.town / "days" / "sun" / "plan.json").unlink()
        (self.town / "days" / "24-dec" / "plan.json").write_text("{}")
        status, text, _ = self.desk("plan", self.town, "--gather")
        self.assertEqual(status, 1)
        for line in ("days/fri: its files have changed since it was planned: plan it again", "days/sun: no run has left a plan",
                     "days/24-dec: its plan.json is none that `./desk plan` writes: plan it again",
                     "days/sat: its files have changed since it was planned: plan it again"):
            self.assertIn(line + "\n", text)
        (self.town / "desk.toml").write_text((self.town / "desk.toml").read_text().replace("layover = 5", "layover = 6"))
        self.assertIn("since 5 day types of 5 have no plan", self.desk("plan", self.town, "--gather")[1])

    def test_a_day_type_without_a_folder(self) -> None:
        shutil.rmtree(self.town / "days" / "sun")
        write_feed(self.town / "days" / "sat", {"desk.toml": "layover = 5\n"})
        status, text, _ = self.desk("plan", self.town)
        self.assertEqual(status, 1)
        self.assertIn("Sunday: no folder of days/ plans its 13 dates\n", text)
        self.assertIn("days/sat: no trip runs on its date, which desk.toml does not have\n", text)
        self.assertIn("fleet: 3 vehicles, on Friday; today 4, on Friday\n", text)

    def test_several_towns(self) -> None:
        """Each is reported, and the vehicles of all of them. A town of one day is one run."""
        other = two_trips(self.room / "other")
        status, text, errors = self.desk("plan", self.town, other)
        self.assertEqual((status, errors), (0, ""), text)
        self.assertEqual(text.splitlines()[-3:], ["fleet: 1 vehicle; today 2", "", "all towns: 4 vehicles"])
        self.assertEqual(len(self.desk("plan", self.town, other, "--commands")[1].splitlines()), 6)
        self.assertEqual(self.desk("plan", other)[0], 0)
        self.assertEqual(self.desk("plan", self.room / "nothing")[0], 1)

    def test_a_program_that_is_not_there(self) -> None:
        """What a run cannot leave is told."""
        script = self.room / "none"
        script.write_text("#!/bin/sh\nkill -9 $PPID\n")
        script.chmod(0o755)
        words = [sys.executable, "-S", str(DESK), "plan", str(self.town)]
        ran = subprocess.run(words, env=os.environ | {"BLOCKDESK": str(script)}, capture_output=True, text=True, check=False)
        self.assertEqual(ran.returncode, 1)
        self.assertIn("the run ended with status -9", ran.stderr)
        self.assertIn("days/sun: no run has left a plan\n", ran.stdout)


@needs_program
class SharedTripsTest(FolderTest):
    """A night line over two days, Friday and Saturday. On Fridays the planner wishes that vehicles stay on their line."""

    def setUp(self) -> None:
        super().setUp()
        self.town = self.room / "town"
        self.fri, self.sat = (self.town / "days" / name for name in ("fri", "sat"))
        self.desk("new", write_feed(self.room / "agency", with_a_night_line()), self.town, "--days")
        self.wish(self.fri, '"line", "stated"')

    def wish(self, day: Path, wishes: str) -> None:
        """Writes what is preferred on a day."""
        (day / "desk.toml").write_text((day / "desk.toml").read_text() + f"prefer = [{wishes}]\n")

    def pairs(self, day: Path) -> set[tuple[str, str]]:
        """The neighbours among the night trips in the blocks of a day."""
        trips = [line.split(",")[:2] for line in (day / "blocks.csv").read_text().splitlines()[1:]]
        return {(one, two) for (block, one), (same, two) in zip(trips, trips[1:]) if block == same and one[:5] == two[:5] == "night"}

    def row(self, label: str, text: str) -> list[str]:
        """The numbers of a day type in a report."""
        return next(line for line in text.splitlines() if line.startswith(label)).split()[1:]

    def test_the_neighbours_of_the_night_are_kept(self) -> None:
        status, text, errors = self.desk("plan", self.town)
        self.assertEqual((status, errors), (0, ""), text)
        self.assertEqual(self.pairs(self.fri), {(f"night_{line}_{number}", f"night_{line}_{number + 1}") for line in "MN" for number in range(4)})
        self.assertEqual(self.pairs(self.sat), self.pairs(self.fri))
        self.assertEqual(self.row("Saturday", text)[7:10], ["0", "of", "8"])
        # Without them a run stays near the blocks of today. These are what `audit` judges in any case.
        audit = self.desk("audit", self.sat)
        (self.sat / "stated.csv").unlink()
        self.desk("blocks", self.sat)
        self.assertEqual(self.pairs(self.sat) & self.pairs(self.fri), set())
        self.assertEqual(self.desk("audit", self.sat), audit)

    def test_the_files_of_a_day_make_its_plan(self) -> None:
        """Each command on the folder plans as `plan` has."""
        self.desk("plan", self.town)
        before = files_of(self.sat)
        for command in ("blocks", "joined"):
            self.assertEqual(self.desk(command, self.sat)[0], 0)
        self.assertEqual(files_of(self.sat), before)
        self.assertEqual(self.desk("write", self.sat)[0], 0)
        blocks = dict(line.split(",")[1::-1] for line in (self.sat / "blocks.csv").read_text().splitlines()[1:])
        written = (row.rsplit(",", 1) for row in (self.sat / "trips_blocks.txt").read_text().splitlines()[1:])
        self.assertEqual({fields.split(",")[2]: block for fields, block in written if fields.split(",")[2] in blocks}, blocks)
        self.assertEqual(self.desk("compare", self.fri, self.sat)[0], 0)

    def test_pairs_and_names_that_differ_are_counted(self) -> None:
        """A day type that does not wish it is planned by itself."""
        self.wish(self.sat, '"waiting"')
        write_feed(self.sat, {"edits.csv": "cancel,night_M_1\n"})
        text = self.desk("plan", self.town)[1]
        self.assertFalse((self.sat / "stated.csv").exists())
        pairs = self.pairs(self.fri) - {("night_M_0", "night_M_1"), ("night_M_1", "night_M_2")}
        self.assertEqual(self.row("Saturday", text)[7:10], [str(len(pairs - self.pairs(self.sat))), "of", str(len(pairs))])
        answer = self.answer("plan", self.town, "--gather")
        shared = {day["folder"]: day["shared"] for day in answer["towns"][0]["days"]}
        self.assertEqual((shared["days/mon-thu"], shared["days/sat"]["trips"]), (None, 9))

    def test_a_plan_behind_another_one_is_not_reported(self) -> None:
        """A run of one day type alone takes its neighbours of the files as they are, and `--gather` names a plan that stays near others."""
        self.desk("plan", self.town)
        stated = (self.sat / "stated.csv").read_text()
        write_feed(self.fri, {"edits.csv": "cancel,night_M_1\ncancel,night_N_1\n"})
        self.assertEqual(self.desk("plan", self.sat)[0], 0)
        self.assertNotEqual((self.sat / "stated.csv").read_text(), stated)
        (self.fri / "edits.csv").unlink()
        self.desk("plan", self.fri)
        status, text, _ = self.desk("plan", self.town, "--gather")
        self.assertEqual(status, 1)
        self.assertIn("days/sat: day types before it have no plan, or another one, since it was planned: plan the town again\n", text)
        self.desk("plan", self.sat)
        self.assertEqual(((self.sat / "stated.csv").read_text(), self.desk("plan", self.town, "--gather")[0]), (stated, 0))

    def test_a_day_type_that_is_refused_gives_no_neighbours(self) -> None:
        write_feed(self.fri, {"deadheads.csv": "from,to,minutes\nAbbey,Abbey,3\n"})
        status, text, _ = self.desk("plan", self.town)
        self.assertEqual(status, 1)
        self.assertIn("days/fri: feed refused: deadheads.csv record 1: same terminal\n", text)
        self.assertFalse((self.sat / "stated.csv").exists())
        self.assertEqual(self.row("Saturday", text)[6], "yes")

    def test_blocks_of_one_name_stay_apart(self) -> None:
        """The agency has a block that is named as a stated one, and its file has no order, quotes and no end of line."""
        trips = (self.town / "trips.txt").read_text()
        self.desk("plan", self.town)
        before = [block.trips for block in read_blocks(self.sat / "blocks.csv")]
        named = (self.sat / "stated.csv").read_text().splitlines()[1].split(",")[1]
        (self.town / "trips.txt").write_text(trips.replace("sat-2", f'"{named}"').removesuffix("\n"))
        self.desk("plan", self.town)
        self.assertEqual([block.trips for block in read_blocks(self.sat / "blocks.csv")], before)
        (self.town / "trips.txt").write_text("".join(line.rsplit(",", 1)[0] + "\n" for line in trips.splitlines()))
        status, text, _ = self.desk("plan", self.town)
        self.assertEqual((status, self.row("Saturday", text)[7:]), (0, ["0", "of", "8", "0", "of", "10"]), text)


@needs_program
class MachinesTest(FolderTest):
    """The single runs over two folders, as if each were on a machine of its own."""

    def test_two_machines_report_what_one_does(self) -> None:
        feed = write_feed(self.room / "agency", with_night_and_school())
        here, there, alone = (self.room / name for name in ("here", "there", "alone"))
        here.mkdir()
        self.desk("new", feed, here / "town", "--days")
        for copy in (there, alone):
            shutil.copytree(here, copy)

        def plan(folder: Path, *words: str) -> str:
            """What the command puts in a folder."""
            return subprocess.run([DESK, "plan", "town", *words], cwd=folder, capture_output=True, text=True, check=True).stdout

        lines = plan(here, "--commands").splitlines()
        self.assertEqual(len(lines), 6)
        # The runs of the first folder need plans of the second one, and the other way round.
        spread(lines[::2], here)
        spread(lines[1::2], there)
        self.assertEqual([(folder / "town" / "days" / name / "plan.json").exists() for folder in (here, there)
                          for name in ("school-mon-thu", "sat", "school-fri")], [True, False, False, False, True, True])
        for day in (there / "town" / "days").iterdir():
            if (day / "plan.json").exists():
                shutil.copytree(day, here / "town" / "days" / day.name, dirs_exist_ok=True)
        self.assertEqual(plan(here, "--gather"), plan(alone))
        self.assertEqual(plan(here, "--gather", "--json"), plan(alone, "--gather", "--json"))
        for path in (alone / "town" / "days").glob("*/*"):
            self.assertEqual((here / path.relative_to(alone)).read_bytes(), path.read_bytes(), path)


if __name__ == "__main__":
    unittest.main()
