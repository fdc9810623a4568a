"""What an older workbench has left of a Keep that was cut off: each command puts it back, and says so."""
from __future__ import annotations

from desk.edits import writing
from desk.errors import DeskError
from desk.leftovers import PART, WHOLE, mend
from desk.locks import LOCK
from tests.feeds import FolderTest, needs_program
from tests.small_town import plan, two_trips

SCRIPT = "cancel,U1\nrestore,U1\n"
SHORT = "restore,U1\n"


class Scripts(FolderTest):
    """A script of which a part stands in its place."""

    def left(self, stands: str | None, whole: str = SCRIPT, part: str = SHORT) -> list[str]:
        """What is told where these three were left."""
        for name, text in (("edits.csv", stands), (WHOLE, whole), (PART, part)):
            if text is None:
                (self.room / name).unlink(missing_ok=True)
            else:
                (self.room / name).write_text(text)
        return mend(self.room)

    def names(self) -> list[str]:
        """What stands in the town then, but for its lock."""
        return sorted(path.name for path in self.room.iterdir() if path.name != LOCK)

    def test_a_part_is_replaced_by_the_whole(self) -> None:
        for stands in (SHORT, None):
            told = self.left(stands)
            self.assertEqual(told, [f"{self.room / 'edits.csv'} was put back: a Keep that was cut off had left a part of it in its place"])
            self.assertEqual((self.names(), (self.room / "edits.csv").read_text()), (["edits.csv"], SCRIPT))
        self.assertEqual(mend(self.room), [])

    def test_where_the_whole_still_stands_nothing_is_told(self) -> None:
        """The writer was cut off before it put the part in place, and nobody has changed anything."""
        self.assertEqual(self.left(SCRIPT), [])
        self.assertEqual((self.names(), (self.room / "edits.csv").read_text()), (["edits.csv"], SCRIPT))

    def test_a_part_that_has_changed_stays_and_so_does_each_whole(self) -> None:
        for number, name in ((1, "before-keep-edits.csv"), (2, "before-keep-2-edits.csv")):
            told, = self.left(SHORT + "undo\n", SCRIPT * number)
            self.assertIn(f"that has changed since. The whole script of then is {self.room / name}: look", told)
            self.assertEqual((self.room / name).read_text(), SCRIPT * number)
            self.assertEqual((self.room / "edits.csv").read_text(), SHORT + "undo\n")

    def test_a_writer_is_waited_for(self) -> None:
        with writing(self.room / "edits.csv"):
            (self.room / WHOLE).write_text(SCRIPT)
            with self.assertRaisesRegex(DeskError, "another `./desk` is writing"), writing(self.room / "edits.csv", wait=0):
                self.fail("two writers hold one lock")
        self.assertEqual(len(mend(self.room)), 1)


@needs_program
class Commands(FolderTest):
    """Each command of a town in which a part was left."""

    def test_each_command(self) -> None:
        for number, words in enumerate((["blocks"], ["check"], ["keep"], ["kept"], ["fixed", "--json"], ["notes"], ["boards"], ["figures"], ["page"],
                                        ["saved"], ["save", "v"], ["compare"], ["open", "--planner", ""])):
            with self.subTest(words[0]):
                town = two_trips(self.room / str(number) / "town", {"edits.csv": SCRIPT})
                plan(town)
                (town / "edits.csv").write_text(SHORT)
                (town / WHOLE).write_text(SCRIPT)
                (town / PART).write_text(SHORT)
                towns = [town, town] if words[0] == "compare" else [town]
                errors = self.desk(words[0], *towns, *words[1:])[2]
                self.assertTrue(errors.startswith(f"desk: {town / 'edits.csv'} was put back: "), errors)
                self.assertEqual((town / "edits.csv").read_text(), "" if words[0] == "kept" else SCRIPT)
