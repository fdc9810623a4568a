"""Tests of versions of a plan: that they come back byte for byte, and that nothing else loses or changes one."""
from __future__ import annotations

import unittest
from pathlib import Path
from unittest import mock

from desk import program
from desk.errors import DeskError, UsageError
from desk.saved import FILES, make_version, version_folder
from desk.town import Town
from tests.feeds import FolderTest, needs_program
from tests.small_town import plan, two_trips


def standing(folder: Path) -> dict[str, bytes]:
    """The bytes of the files of a version that stand in a folder."""
    return {name: (folder / name).read_bytes() for name in FILES if (folder / name).exists()}


@needs_program
class Versions(FolderTest):
    """Versions of a town of two trips."""

    def setUp(self) -> None:
        super().setUp()
        self.feed = two_trips(self.room / "feed", {"desk.toml": "late = 5\n", "edits.csv": "shift,U1,+1\r\n# a note\r\nshift,U1,+1\n"})
        plan(self.feed)

    def test_what_is_saved_comes_back(self) -> None:
        before = standing(self.feed)
        self.assertEqual(self.desk("save", self.feed, "monday"), (0, "saved monday: yes, vehicles 1, minutes 45\n", ""))
        program.run(["keep", self.feed])
        (self.feed / "edits.csv").write_text("cancel,U2\n")
        program.run(["keep", self.feed])
        program.run(["kept", self.feed])
        program.run(["blocks", self.feed])
        after = standing(self.feed)
        self.assertTrue(all(before[name] != after[name] for name in FILES))
        status, out, errors = self.desk("saved", self.feed, "monday")
        self.assertEqual((status, out, standing(self.feed)), (1, "", after))
        self.assertIn("edits.csv, blocks.csv, prices.csv", errors)
        self.assertEqual(self.desk("saved", self.feed, "monday", "--replace"), (0, "monday stands: yes, vehicles 1, minutes 45\n", ""))
        self.assertEqual(standing(self.feed), before)
        self.assertEqual(self.desk("saved", self.feed, "monday"), (0, "monday stands: yes, vehicles 1, minutes 45\n", ""))

    def test_the_list_has_each_version_with_its_verdict_of_then(self) -> None:
        self.assertEqual(self.desk("saved", self.feed), (0, "", ""))
        self.desk("save", self.feed, "monday")
        (self.feed / "edits.csv").write_text("cancel,U2\n")
        plan(self.feed)
        self.desk("save", self.feed, "a.second-one_2")
        lines = self.desk("saved", self.feed)[1].splitlines()
        self.assertRegex(lines[0], r"^monday  \d{4}-\d\d-\d\d \d\d:\d\d  yes, vehicles 1, minutes 45$")
        self.assertRegex(lines[1], r"^a\.second-one_2  .*  yes, vehicles 1, minutes 10$")

    def test_a_version_is_never_written_over(self) -> None:
        self.desk("save", self.feed, "monday")
        before = standing(self.feed / "saved" / "monday")
        (self.feed / "edits.csv").write_text("")
        plan(self.feed)
        status, _, errors = self.desk("save", self.feed, "monday")
        self.assertEqual(status, 1)
        self.assertIn("monday is saved already", errors)
        self.assertEqual(standing(self.feed / "saved" / "monday"), before)

    def test_a_plan_that_is_not_of_the_script_is_saved_and_said_to_be_so(self) -> None:
        (self.feed / "edits.csv").write_text("cancel,U2\n")
        status, out, _ = self.desk("save", self.feed, "half")
        self.assertEqual((status, out), (1, "saved half: no: blocks.csv record 2: unknown trip U2\n"))
        self.assertEqual(standing(self.feed / "saved" / "half"), standing(self.feed))

    def test_without_a_script(self) -> None:
        (self.feed / "edits.csv").unlink()
        plan(self.feed)
        self.desk("save", self.feed, "plain")
        self.assertEqual(self.desk("saved", self.feed, "plain")[0], 0)
        self.assertFalse((self.feed / "edits.csv").exists())
        (self.feed / "edits.csv").write_text("cancel,U2\n")
        self.assertEqual(self.desk("saved", self.feed, "plain")[0], 1)
        self.assertEqual(self.desk("saved", self.feed, "plain", "--replace"), (0, "plain stands: yes, vehicles 1, minutes 45\n", ""))
        self.assertEqual((self.feed / "edits.csv").read_bytes(), b"")

    def test_what_cannot_be_saved(self) -> None:
        (self.feed / "prices.csv").unlink()
        self.assertRegex(self.desk("save", self.feed, "one")[2], "^desk: prices.csv is not in .*blocks.*\n$")
        plan(self.feed)
        (self.feed / "deadheads.csv").write_text("from,to\n")
        self.assertEqual(self.desk("save", self.feed, "one"), (1, "", f"desk: nothing is saved: {self.feed}: feed refused: deadheads.csv: no column minutes\n"))
        self.assertFalse((self.feed / "saved").exists())

    def test_a_file_that_changes_meanwhile_is_not_saved(self) -> None:
        run = program.run

        def change(words: list[str | Path]) -> program.Outcome:
            outcome = run(words)
            (self.feed / "edits.csv").write_text("cancel,U1\n")
            return outcome

        with mock.patch("desk.program.run", change):
            self.assertRegex(self.desk("save", self.feed, "one")[2], "changed meanwhile")
        self.assertFalse((self.feed / "saved").exists())

    def test_a_version_that_is_not_there(self) -> None:
        self.desk("save", self.feed, "monday")
        self.assertRegex(self.desk("saved", self.feed, "tuesday")[2], "has no version tuesday: it has monday\n$")
        self.assertEqual(self.desk("saved", self.room / "nowhere")[0], 1)


class Folders(FolderTest):
    """Names of versions, and a version that is cut off."""

    def test_names(self) -> None:
        town = Town(self.room)
        for name in ("monday", "2026-09-07", "v1.2_b", "Dienstag_früh"):
            self.assertEqual(version_folder(town, name), self.room / "saved" / name)
        for name in ("", ".", "..", "../x", "a/b", ".hidden", "-x", "a b", "a\nb", "x" * 65, "a.", "\x00"):
            with self.subTest(name=name), self.assertRaises(UsageError):
                version_folder(town, name)

    def test_a_write_that_fails_leaves_no_version(self) -> None:
        folder = self.room / "saved" / "one"
        with mock.patch("desk.saved.os.rename", side_effect=OSError(28, "No space left on device")):
            with self.assertRaisesRegex(DeskError, "No space left"):
                make_version(folder, {"edits.csv": b""})
        self.assertEqual(list((self.room / "saved").iterdir()), [])
        make_version(folder, {"edits.csv": b"show\n"})
        self.assertEqual((folder / "edits.csv").read_bytes(), b"show\n")
        self.assertEqual([path.name for path in (self.room / "saved").iterdir()], ["one"])


if __name__ == "__main__":
    unittest.main()
