"""Feeds are unpacked from zips and folders, and hostile ones are refused in words, with nothing left."""
from __future__ import annotations

import os
import re
import shutil
import stat
import struct
import warnings
import zipfile
from collections.abc import Mapping
from pathlib import Path
from unittest import mock

from desk.errors import DeskError
from desk.unpacking import unpack
from tests.feeds import FolderTest, demonstration, files_of, write_feed, zip_feed


class Unpacked(FolderTest):
    """What stands in the folder afterwards."""

    def setUp(self) -> None:
        super().setUp()
        (self.room / "agency").mkdir()

    def unpacked(self, feed: Path) -> dict[str, bytes]:
        """The files of a feed, unpacked."""
        names = unpack(feed, self.room / "agency")
        found = files_of(self.room / "agency")
        self.assertEqual(sorted(names), sorted(found))
        return found

    def test_a_zip_and_a_folder_of_the_same_files(self) -> None:
        feed = {name: text.encode() for name, text in demonstration().items()}
        for kind, made in (("zip", lambda path: zip_feed(path, feed)),
                           ("in a folder of the zip", lambda path: zip_feed(path, feed, "gtfs/2026/")),
                           ("with dots", lambda path: zip_feed(path, feed, "./gtfs//")),
                           ("by backslashes", lambda path: zip_feed(path, feed, "gtfs\\")),
                           ("folder", lambda path: write_feed(path, feed)),
                           ("in a folder of the folder", lambda path: write_feed(path / "gtfs", feed).parent)):
            with self.subTest(kind):
                for path in (self.room / "agency").iterdir():
                    path.unlink()
                self.assertEqual(feed, self.unpacked(made(self.room / kind)))

    def test_files_elsewhere_are_passed_over(self) -> None:
        feed = {"gtfs/trips.txt": "a", "gtfs/deeper/stops.txt": "b", "__MACOSX/gtfs/trips.txt": "c",
                "__MACOSX/trips.txt": "d", "README": "e", "gtfs/é.txt": "f"}
        self.assertEqual({"trips.txt": b"a", "é.txt": b"f"}, self.unpacked(zip_feed(self.room / "x.zip", feed)))

    def test_the_top_goes_before_a_folder(self) -> None:
        self.assertEqual({"trips.txt": b"a"}, self.unpacked(zip_feed(self.room / "x.zip", {"old/trips.txt": "b", "trips.txt": "a"})))

    def test_entries_of_folders(self) -> None:
        path = zip_feed(self.room / "x.zip", {"gtfs/trips.txt": "a"})
        with zipfile.ZipFile(path, "a") as archive:
            archive.mkdir("gtfs")
            archive.mkdir("empty")
        self.assertEqual({"trips.txt": b"a"}, self.unpacked(path))

    def test_things_of_a_folder_that_are_no_files(self) -> None:
        folder = write_feed(self.room / "feed", {"trips.txt": "a"})
        os.mkfifo(folder / "pipe.txt")
        (folder / "gone.txt").symlink_to("nothing")
        self.assertEqual({"trips.txt": b"a"}, self.unpacked(folder))


class Refused(FolderTest):
    """Feeds that are refused. Nothing is written outside, and `new` leaves no town."""

    def refused(self, feed: Path, message: str) -> None:
        """Unpacking is refused with this message, and a town is not made."""
        before = sorted(path.name for path in self.room.parent.iterdir())
        status, text, errors = self.desk("new", feed, self.room / "towns" / "town")
        self.assertEqual((1, ""), (status, text))
        self.assertRegex(errors, f"^desk: .*{message}.*\n$")
        self.assertEqual([], os.listdir(self.room / "towns"))
        self.assertEqual([], [name for name in os.listdir(self.room.parent) if name not in before and name == "x"])

    def setUp(self) -> None:
        super().setUp()
        (self.room / "towns").mkdir()

    def zip_of(self, more: Mapping[str, str]) -> Path:
        """A zip of the demonstration feed and of these files."""
        return zip_feed(self.room / "x.zip", {**demonstration(), **more})

    def test_names_that_lead_out_of_the_folder(self) -> None:
        for name in ("../x", "gtfs/../../x", "/x", "/tmp/x", "..", "..\\x", "C:\\x", "c:x", "\\x", "a/..", "//server/x"):
            with self.subTest(name):
                self.refused(self.zip_of({name: "evil"}), "leads out of the folder")

    def test_a_name_with_a_zero(self) -> None:
        path = self.zip_of({"x@y": "evil"})
        path.write_bytes(path.read_bytes().replace(b"x@y", b"x\0y"))
        self.refused(path, r"the name x\\x00y in it leads out")

    def test_links_and_devices(self) -> None:
        for kind in (stat.S_IFLNK, stat.S_IFIFO, stat.S_IFCHR, stat.S_IFSOCK):
            path = self.zip_of({})
            entry = zipfile.ZipInfo("shapes.txt")
            entry.external_attr = (kind | 0o777) << 16
            with self.subTest(kind=kind), zipfile.ZipFile(path, "a") as archive:
                archive.writestr(entry, "/etc/passwd")
                archive.close()
                self.refused(path, "shapes.txt in it is a link or another thing that is no file")

    def test_more_than_there_may_be_in_all(self) -> None:
        path = self.zip_of({"shapes.txt": "a", "more.txt": "b"})
        content = bytearray(path.read_bytes())
        for name in (b"shapes.txt", b"more.txt"):
            at = content.rindex(name) - 46
            self.assertEqual(b"PK\1\2", content[at:at + 4])
            content[at + 24:at + 28] = struct.pack("<I", 0x90000000)
        path.write_bytes(content)
        self.refused(path, "more than 4,294,967,296 bytes in all")

    def test_a_bomb_is_refused_before_it_is_unpacked(self) -> None:
        path = self.zip_of({"shapes.txt": "0" * 3_000_000})
        self.assertLess(path.stat().st_size, 20_000)
        with mock.patch("desk.zips.MOST_BYTES", 2_000_000), mock.patch("zipfile.ZipFile.open", side_effect=AssertionError):
            self.refused(path, "more than 2,000,000 bytes in all")

    def test_a_folder_with_more_than_there_may_be(self) -> None:
        with mock.patch("desk.unpacking.MOST_BYTES", 1000):
            self.refused(write_feed(self.room / "feed", demonstration()), "more than 1,000 bytes in all")

    def test_an_entry_that_lies_about_its_size(self) -> None:
        path = self.zip_of({"shapes.txt": "0" * 100_000})
        content = bytearray(path.read_bytes())
        at = content.rindex(b"shapes.txt") - 46
        content[at + 24:at + 28] = struct.pack("<I", 10)
        path.write_bytes(content)
        self.refused(path, "shapes.txt cannot be unpacked: Bad CRC-32")

    def test_names_that_are_not_utf8(self) -> None:
        path = self.zip_of({"caf@.txt": "a"})
        path.write_bytes(path.read_bytes().replace(b"caf@", b"caf\xe9"))
        self.refused(path, "a name in it is not UTF-8")
        path = self.zip_of({"café.txt": "a"})
        path.write_bytes(path.read_bytes().replace("café".encode(), b"caf\xff\xff"))
        self.refused(path, "a name in it is not UTF-8")

    def test_two_entries_of_one_name(self) -> None:
        for first, second in (("trips.txt", "trips.txt"), ("trips.txt", "./trips.txt"), ("a/b.txt", "a\\b.txt")):
            with self.subTest(second), warnings.catch_warnings(action="ignore"), zipfile.ZipFile(self.room / "x.zip", "w") as archive:
                archive.writestr(first, "a")
                archive.writestr(second, "b")
                archive.close()
                self.refused(self.room / "x.zip", "stands in it twice")

    def test_more_entries_than_a_feed_has(self) -> None:
        more = {f"{number}.txt": "" for number in range(1000 - len(demonstration()))}
        for feed in (self.zip_of(more), write_feed(self.room / "folder", {**demonstration(), **more})):
            self.assertEqual((1, ""), self.desk("new", feed, self.room / "towns" / "town")[::2])
            shutil.rmtree(self.room / "towns" / "town")
        self.refused(self.zip_of({**more, "one.txt": ""}), "it has 1,001 entries, and a feed has at most 1,000")
        (self.room / "folder" / "one.txt").write_text("")
        self.refused(self.room / "folder", "1,001 files lie beside its trips.txt, and a feed has at most 1,000")

    def test_many_files_are_written_with_one_sync(self) -> None:
        feed = self.zip_of({f"{number}.txt": "" for number in range(900)})
        with mock.patch("os.sync", side_effect=os.sync) as once, mock.patch("os.fsync", side_effect=os.fsync) as each:
            self.assertEqual(1, self.desk("new", feed, self.room / "towns" / "town")[0])
        self.assertEqual(once.call_count, 1)
        self.assertLess(each.call_count, 20)

    def test_names_of_no_file(self) -> None:
        for name in (".", "./.", "././/."):
            with self.subTest(name):
                self.refused(self.zip_of({name: "x"}), f"the name '{re.escape(name)}' in it is that of no file")

    def test_no_trips(self) -> None:
        feed = {name: text for name, text in demonstration().items() if name != "trips.txt"}
        self.refused(zip_feed(self.room / "x.zip", feed), "no trips.txt in it; it has agency.txt, ")
        self.refused(zip_feed(self.room / "x.zip", {"bus.zip": "", "rail.zip": ""}), "it has bus.zip, rail.zip")
        self.refused(zip_feed(self.room / "x.zip", {}), "no trips.txt in it; it has no file")
        self.refused(write_feed(self.room / "feed", feed), "no trips.txt in it")
        self.refused(zip_feed(self.room / "x.zip", {"a/trips.txt": "", "b/trips.txt": ""}), "lies in several of its folders: a, b")

    def test_no_stop_times(self) -> None:
        self.refused(zip_feed(self.room / "x.zip", {"trips.txt": demonstration()["trips.txt"]}), "no stop_times.txt beside its trips.txt")

    def test_what_is_no_zip(self) -> None:
        for content in (b"", b"trip_id\n", b"PK\5\6" + bytes(10), b"PK\3\4" + bytes(100)):
            with self.subTest(content=content):
                (self.room / "x.zip").write_bytes(content)
                self.refused(self.room / "x.zip", "is no zip that can be read")
        self.refused(self.room / "nothing", "nothing is not there")

    def test_encrypted_and_unknown_compression(self) -> None:
        for offset, value, message in ((8, 1, "is encrypted"), (10, 97, "compression")):
            path = self.zip_of({})
            content = bytearray(path.read_bytes())
            at = content.rindex(b"trips.txt") - 46
            content[at + offset] |= value
            path.write_bytes(content)
            with self.subTest(message):
                self.refused(path, f"trips.txt cannot be unpacked: .*{message}")

    def test_a_file_that_may_not_be_read(self) -> None:
        folder = write_feed(self.room / "feed", {"trips.txt": ""})
        with mock.patch("builtins.open", side_effect=PermissionError(13, "Permission denied")):
            with self.assertRaisesRegex(DeskError, "trips.txt cannot be unpacked: Permission denied"):
                unpack(folder, self.room)
