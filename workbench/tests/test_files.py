"""Files are written whole, and never over what is there unless it is asked."""
from __future__ import annotations

import os
from unittest import mock

from desk.errors import DeskError
from desk.files import read_text, whole_file, write_whole
from tests.feeds import FolderTest


class WrittenFiles(FolderTest):
    """What stands in the folder after a write."""

    def test_text_and_bytes_are_written_and_read(self) -> None:
        for content, read in (("a,b\n", "a,b\n"), (b"\xef\xbb\xbfa\r\n", "a\r\n"), (b"caf\xe9", "caf\udce9"), ("caf\udce9", "caf\udce9")):
            with self.subTest(content=content):
                write_whole(self.room / "x.csv", content, replace=True)
                self.assertEqual(read, read_text(self.room / "x.csv"))
        self.assertEqual(b"caf\xe9", (self.room / "x.csv").read_bytes())
        self.assertEqual(["x.csv"], os.listdir(self.room))

    def test_a_new_file_has_the_permissions_of_others(self) -> None:
        (self.room / "other").write_text("")
        write_whole(self.room / "x.csv", "")
        self.assertEqual((self.room / "other").stat().st_mode, (self.room / "x.csv").stat().st_mode)

    def test_a_file_that_is_there_stays(self) -> None:
        (self.room / "x.csv").write_text("mine")
        with self.assertRaisesRegex(DeskError, "x.csv is there already: with --replace"):
            write_whole(self.room / "x.csv", "new")
        self.assertEqual("mine", (self.room / "x.csv").read_text())
        write_whole(self.room / "x.csv", "new", replace=True)
        self.assertEqual("new", (self.room / "x.csv").read_text())

    def test_a_link_to_nothing_counts_as_there(self) -> None:
        (self.room / "x.csv").symlink_to(self.room / "nothing")
        with self.assertRaises(DeskError):
            write_whole(self.room / "x.csv", "new")
        self.assertEqual(["x.csv"], os.listdir(self.room))

    def test_a_write_that_fails_leaves_the_old_file_and_no_other(self) -> None:
        (self.room / "x.csv").write_text("old")
        with mock.patch("os.replace", side_effect=OSError(28, "No space left on device")):
            with self.assertRaisesRegex(DeskError, "x.csv cannot be written: No space left on device"):
                write_whole(self.room / "x.csv", "new", replace=True)
        with self.assertRaises(ZeroDivisionError), whole_file(self.room / "x.csv", replace=True) as file:
            file.write(b"half" * (1 << 20))
            raise ZeroDivisionError
        self.assertEqual("old", (self.room / "x.csv").read_text())
        self.assertEqual(["x.csv"], os.listdir(self.room))

    def test_what_cannot_be_read_or_written_is_named(self) -> None:
        with self.assertRaisesRegex(DeskError, "nowhere/x.csv cannot be written: No such file"):
            write_whole(self.room / "nowhere" / "x.csv", "")
        with self.assertRaisesRegex(DeskError, "nowhere: No such file"):
            read_text(self.room / "nowhere")
        with self.assertRaisesRegex(DeskError, "Is a directory"):
            read_text(self.room)
