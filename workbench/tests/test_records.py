"""Comma-separated files are read by the rules of the program, and its numbers of records are ours."""
from __future__ import annotations

import random

from desk.errors import DeskError
from desk.program import run
from desk.records import is_utf8, open_records, record_text, records_of
from tests.feeds import FolderTest, needs_program, write_feed

FORMS = {
    "mark": (b"\xef\xbb\xbfa,b\n1,2\n", ["a", "b"], [["1", "2"]]),
    "second mark": (b"\xef\xbb\xbf\xef\xbb\xbfa\n", ["\ufeffa"], []),
    "mark alone": (b"\xef\xbb\xbf", [], []),
    "nothing": (b"", [], []),
    "blank lines": (b"\n\na\r\n\r\n1\r\n\n2", ["a"], [["1"], ["2"]]),
    "lone CR": (b"a,b\r1,2\r\r3,4", ["a", "b"], [["1", "2"], ["3", "4"]]),
    "spaces and quotes alone are records": (b"a\n \n\"\"\n", ["a"], [[" "], [""]]),
    "short": (b"a,b,c\n1\n", ["a", "b", "c"], [["1", "", ""]]),
    "long": (b"a\n1,2\n", ["a"], [["1", "2"]]),
    "quoted": (b'a,b\n"x, ""y""\r\nz",2\n', ["a", "b"], [['x, "y"\r\nz', "2"]]),
    "quote inside": (b'a,b\nx"y,"z"w\n', ["a", "b"], [['x"y', "zw"]]),
    "space before a quote": (b'a,b,c\n "x,y"\n', ["a", "b", "c"], [[' "x', 'y"', ""]]),
    "open quote": (b'a,b\n1,"x\n2,y\n', ["a", "b"], [["1", "x\n2,y\n"]]),
    "not UTF-8": (b"a\ncaf\xe9\n", ["a"], [["caf\udce9"]]),
    "spaces in names": (b" a ,b \n", ["a", "b"], []),
    "NUL": (b"a\n\0\n", ["a"], [["\0"]]),
}


class ReadRecords(FolderTest):
    """What stands in the records of a file."""

    def test_forms(self) -> None:
        for name, (content, header, rows) in FORMS.items():
            with self.subTest(name):
                (self.room / "x.txt").write_bytes(content)
                with open_records(self.room / "x.txt") as records:
                    self.assertEqual(header, records.header)
                    self.assertEqual(list(enumerate(rows, 1)), list(records))

    def test_columns(self) -> None:
        records = records_of("x.txt", "b,a,b\n")
        self.assertEqual((0, 1, None), (records.column("b"), records.column("a"), records.find("c")))
        with self.assertRaisesRegex(DeskError, "^x.txt: no column c$"):
            records.column("c")
        with self.assertRaisesRegex(DeskError, "^x.txt: no header$"):
            records_of("x.txt", "").column("c")

    def test_a_quote_that_takes_in_too_much_is_an_error(self) -> None:
        records = records_of("x.txt", 'a\n1\n"' + "x" * (1 << 21))
        with self.assertRaisesRegex(DeskError, "x.txt record 2: .*quote"):
            list(records)

    def test_files_that_cannot_be_opened(self) -> None:
        for path, message in ((self.room / "x.txt", "x.txt: missing in "), (self.room, "Is a directory")):
            with self.subTest(path=path), self.assertRaisesRegex(DeskError, message):
                with open_records(path):
                    pass

    def test_marks_of_utf8(self) -> None:
        self.assertEqual([True, True, False], [is_utf8(text) for text in ("", "é", "caf\udce9")])

    @needs_program
    def test_records_have_the_numbers_of_the_program(self) -> None:
        trips = "\n\nservice_id,trip_id\r\n\r\nW,U1\rW,\"U\n\n2\"\n\n\nW,U1\n"
        write_feed(self.room, {"trips.txt": trips, "stop_times.txt": ""})
        ours = [number for number, fields in records_of("trips.txt", trips) if fields[1] == "U1"]
        self.assertEqual(b"feed refused: trips.txt record %d: duplicate\n" % ours[1], run(["fixed", self.room]).text)


class WrittenRecords(FolderTest):
    """A record that is written is read as the same record."""

    def test_forms(self) -> None:
        for fields, text in ((["a", "b"], "a,b\n"), (["a,b"], '"a,b"\n'), (['"'], '""""\n'), ([""], '""\n'), (["", ""], ",\n"),
                             (["a\rb", "c"], '"a\rb",c\n'), (["caf\udce9"], "caf\udce9\n")):
            with self.subTest(fields=fields):
                self.assertEqual(text, record_text(fields))

    def test_what_is_written_is_read(self) -> None:
        chosen = random.Random(7)
        for _ in range(2000):
            fields = ["".join(chosen.choices('a",\r\n \udce9', k=chosen.randrange(4))) for _ in range(chosen.randrange(1, 4))]
            header = record_text(["x"] * len(fields))
            self.assertEqual([(1, fields)], list(records_of("x.txt", header + record_text(fields))))
