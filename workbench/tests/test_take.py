"""`desk take`: the planners' edits that stand come into the script, and nothing is lost or done twice."""
from __future__ import annotations

import os
import shutil
from pathlib import Path
from unittest import mock

from desk.edits import writing
from desk.leftovers import mend
from desk.locks import LOCK
from desk.open.session import Session
from desk.program import ROOT, run
from tests.feeds import FolderTest, needs_program

PLANNED = "ann,shift,U2,+1\nbob,cancel,U1\nann,undo\nbob,undo\nann,shift,U2,+1\n\"cy, d\",extra,\"E,1\",B,C,7:40,07:50\n"
STANDS = "shift,U2,+1\nextra,\"E,1\",B,C,07:40,07:50\n"


@needs_program
class TakeTest(FolderTest):
    """A town with the edits of planners."""

    def setUp(self) -> None:
        super().setUp()
        self.town = self.room / "town"
        shutil.copytree(ROOT / "examples" / "edits", self.town, ignore=shutil.ignore_patterns("expected", "edits.csv", "blocks.csv", "prices.csv"))
        self.write("planner_edits.csv", PLANNED)

    def write(self, name: str, text: str) -> None:
        (self.town / name).write_text(text)

    def read(self, name: str) -> str:
        path: Path = self.town / name
        return path.read_text() if path.exists() else ""

    def test_take(self) -> None:
        """The plan of the planners is the plan of the script afterwards, and nobody's edits stand twice."""
        planned = run(["planners", self.town]).text.decode().splitlines()[-1]
        status, text, errors = self.desk("take", self.town)
        self.assertEqual((status, text, errors), (0, f"took 2 records into {self.town / 'edits.csv'}; planner_edits.csv is empty\n", ""))
        self.assertEqual((self.read("edits.csv"), self.read("planner_edits.csv")), (STANDS, ""))
        told = run(["blocks", self.town])
        self.assertEqual((told.status, told.text.decode().splitlines()[-1]), (0, planned))
        self.assertEqual(run(["planners", self.town]).text.decode(), planned + "\n")
        self.assertEqual(self.desk("take", self.town)[0], 1)
        self.assertEqual(self.read("edits.csv"), STANDS)

    def test_not_kept(self) -> None:
        """Records that are not kept stay where they are, and so do the planners'."""
        self.write("edits.csv", "cancel,U1\nundo\nshift,U2,+9\n")
        status, _, errors = self.desk("take", self.town)
        self.assertEqual((status, errors), (1, "desk: edits.csv has 2 edits that the journal does not have, from record 1 on: `./desk keep "
                                               f"{self.town}` keeps them, or take them out of edits.csv. Nothing was taken\n"))
        self.assertEqual((self.read("edits.csv"), self.read("planner_edits.csv")), ("cancel,U1\nundo\nshift,U2,+9\n", PLANNED))
        run(["keep", self.town])
        self.assertEqual(self.desk("take", self.town)[0], 0)
        self.assertEqual(self.read("edits.csv"), "cancel,U1\nundo\nshift,U2,+9\n" + STANDS)

    def test_nothing_to_take(self) -> None:
        """Without the planners' file there is nothing to take, and where all is undone it is emptied alone."""
        self.write("planner_edits.csv", "ann,cancel,U1\nann,undo\n")
        self.assertIn("took 0 records", self.desk("take", self.town)[1])
        self.assertEqual((self.read("edits.csv"), self.read("planner_edits.csv")), ("", ""))
        (self.town / "planner_edits.csv").unlink()
        self.assertEqual(self.desk("take", self.town)[0], 1)

    def test_ended_at_any_step(self) -> None:
        """Where the writer ends between two of its steps, the next one finds all edits once: with the planners, or in the script."""
        for steps in range(5):
            self.write("edits.csv", "")
            self.write("planner_edits.csv", PLANNED)
            left = [steps]

            def step(*words: object, real: object = os.replace) -> None:
                """Does a step, or ends the writer before it."""
                left[0] -= 1
                if left[0] < 0:
                    raise KeyboardInterrupt
                real(*words)  # type: ignore[operator]

            with mock.patch("desk.edits.os.replace", step):
                try:
                    with writing(self.town / "edits.csv") as script:
                        script.take(self.town / "planner_edits.csv", STANDS.encode())
                except KeyboardInterrupt:
                    pass
            if steps == 2:
                self.assertIn("was cut off", *mend(self.town))
            for _ in range(2):
                with writing(self.town / "planner_edits.csv"):
                    pass
                self.assertIn((self.read("edits.csv"), self.read("planner_edits.csv")), (("", PLANNED), (STANDS, "")), steps)
            self.assertEqual([path.name for path in self.town.iterdir() if path.name.startswith(".") and path.name != LOCK], [])

    def test_page(self) -> None:
        """A planner's page writes files of the edits that stand, and its keep takes them before."""
        session = Session(self.town, "ann")
        numbers = session.day()["day"]["numbers"]
        said = session.export({"what": "blocks"})
        self.assertIn(f"vehicles {numbers['vehicles']}, minutes {numbers['minutes']}", said["said"])
        self.assertEqual((said["day"]["written"], self.read("edits.csv"), self.read("planner_edits.csv")), ("same", "", PLANNED))
        self.assertIn("E,1", self.read("blocks.csv"))
        for what, name in (("boards", "boards.csv"), ("feed", "stop_times_blocks.txt")):
            session.export({"what": what})
            self.assertIn("07:01" if what == "boards" else "07:01:00", self.read(name))
        kept = session.keep({})
        self.assertIn("took 2 records", kept["said"])
        self.assertIn("kept 2 records", kept["said"])
        self.assertEqual((self.read("edits.csv"), self.read("planner_edits.csv"), kept["day"]["numbers"]), (STANDS, "", numbers))
        self.assertEqual(kept["day"]["planners"]["standing"], [])
