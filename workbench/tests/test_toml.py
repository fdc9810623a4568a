"""TOML 1.1: what only that version has is read as the program reads it, and an error has its line."""
from __future__ import annotations

import datetime
import time
import unittest
from typing import Any

from desk import program
from desk.hints.toml import toml_hints
from desk.toml import TomlError, read_toml, toml_text
from tests.feeds import FolderTest, agency, needs_program, write_feed

READ: list[tuple[str, Any]] = [
    ("a = {b = 1,}", {"b": 1}),
    ("a = {\n  b = 1, # one, }\n  c = 2,\n\n}", {"b": 1, "c": 2}),
    ("a = {\r\n  b = 1,\r\n}", {"b": 1}),
    ("a = {\n}", {}),
    ("a = { # nothing\n}", {}),
    ("a = {b = 1\n, c = 2}", {"b": 1, "c": 2}),
    ("a = [{b = 1,\n}, {c = [1, # one\n2,],},]", [{"b": 1}, {"c": [1, 2]}]),
    ("a = {b = {c = 1,},\n}", {"b": {"c": 1}}),
    ("a = {b.c = 1,\n\"d e\" = '}',}", {"b": {"c": 1}, "d e": "}"}),
    ("a = {b = \"\"\"}\n,\"\"\"\"\", c = '''}\n''',}", {"b": '}\n,""', "c": "}\n"}),
    (r'a = "\e[1m\x41\\e\\x41"', "\x1b[1mA\\e\\x41"),
    ('a = """\\e\n\\xe9"""', "\x1b\né"),
    (r"a = '\e\x41'", r"\e\x41"),
    (r'"\x61" = 1', 1),
    ("a = 07:30", datetime.time(7, 30)),
    ("a = [1979-05-27 07:30, 1979-05-27T07:30]", [datetime.datetime(1979, 5, 27, 7, 30)] * 2),
    ("a = 1979-05-27T07:30Z # noon", datetime.datetime(1979, 5, 27, 7, 30, tzinfo=datetime.timezone.utc)),
    ("a = 1979-05-27T07:30:15", datetime.datetime(1979, 5, 27, 7, 30, 15)),
    ("# {\na = 1", 1),
]
"""Texts of TOML 1.1, each with the value of its key `a`."""

REFUSED: list[tuple[str, int | None]] = [
    ("x = 1\na = {b\n= 1}", 2), ("a = {b =\n1}", 1), ("a = {b # no\n= 1}", 1), ("a = {,}", 1), ("a = {b = 1,,}", 1), ("a = {\n\n,}", 3),
    ("a = {b = 1\nc = 2}", 1), ("a = {\nb = 1979-05-27\n07:32:00}", 1), ('a = "\\x4"', 1), ('a = "\\E"', 1), ("a = 7:30", 1),
    ("a = {b = 1,} # c\nc == 2", 2), ("a = {\n\nb = 1,\n}\nc = {\nd = 1, # d\nd = 2,\n}\n", 7),
    ("x = 1\na = {b = {\nc = 1,\n", 2),
    ("a = {\nb = 1,\nlayover = 5\nlate = 2\n", 1), ("a = [1,\n2\n", None), ("a = {b = 1,}\n[a]\n", 2),
    ("layover: 5", 1), ("a = {b = 1]", 1), ("a = \"{\n}\nb = 1", 1), ("a = {b = 'c}\n,d = 1,}", 1), ('a = {b = """c}\n,d = 1,}', 1),
]
"""Texts that are not TOML 1.1, each with the line that the error names, None at the end of the text."""


class TomlTest(FolderTest):
    """Texts of settings."""

    def test_read(self) -> None:
        for text, value in READ:
            with self.subTest(text):
                self.assertEqual(read_toml(text), {"a": value})

    def test_refused(self) -> None:
        for text, line in REFUSED:
            with self.subTest(text):
                with self.assertRaises(TomlError) as caught:
                    read_toml(text)
                self.assertEqual(caught.exception.line, line)

    def test_a_long_comment_takes_no_time(self) -> None:
        began = time.monotonic()
        self.assertEqual(read_toml("a = {b = 1," + "# #" * 20_000 + "\n" * 20_000 + "}"), {"a": {"b": 1}})
        self.assertLess(time.monotonic() - began, 5)

    def test_40_kilobytes_are_read_in_a_second(self) -> None:
        """Whatever stands in a `desk.toml` of that size, its hints are there in a second of the processor."""
        size = 40_000
        for text in (".".join("a" * (size // 2)) + " = 1", "a." * (size // 2), "[" + ".".join("a" * (size // 2)) + "]",
                     " . ".join(['"a"'] * (size // 6)) + " = 1", "a" + " " * size + "b", "a = b" + " " * size + "c", "late = " + "0" * size + "!",
                     "late = " + "9" * size, "a = " + "[" * size, "a = " + "{a=" * (size // 3), 'a = """' + '"" ' * (size // 3), "a = {" + " , " * (size // 3) + "}",
                     "a = {b = 1\n" + "# x\n" * (size // 4), "services = [" + "a, " * (size // 3) + "]"):
            (self.room / "desk.toml").write_text(text + "\n")
            began = time.process_time()
            hints = toml_hints(self.room / "desk.toml")
            with self.subTest(text[:12]):
                self.assertLess(time.process_time() - began, 1)
                self.assertEqual(len(hints), 1)

    def test_parts_of_a_key(self) -> None:
        for count in (79, 80, 81):
            for text in (".".join("a" * count) + " = 1.5", "[" + " . ".join(['"a.b"'] * count) + "]", "x = {y = 1.5, " + ".".join("a" * count) + " = 1}"):
                with self.subTest(text, parts=count):
                    if count > 80:
                        self.assertRaises(RecursionError, read_toml, text)
                    else:
                        self.assertTrue(read_toml(text))

    @needs_program
    def test_the_program_reads_no_more_parts(self) -> None:
        for count in (80, 81):
            town = write_feed(self.room / "town", {**agency(), "desk.toml": ".".join("a" * count) + " = 1"})
            self.assertEqual(program.run(["deficits", town]).text.decode(), f"feed refused: desk.toml: {'bad a' if count == 80 else 'not TOML'}\n")

    def test_what_is_written_reads_back(self) -> None:
        said = {"date": "20260907", "layovers": {'The "Gate"\\': 3, "a.b\t\x7f\x00": 0, "Zürich 🚌": 240}, "services": ["a", "b\n"], "layover": 5,
                "classes": {}}
        self.assertEqual(read_toml(toml_text(said)), said)

    @needs_program
    def test_the_program_reads_the_same(self) -> None:
        """The keys of these texts are unknown to the program, so of a text that is TOML it says another thing."""
        for text, is_toml in [(text, True) for text, _ in READ] + [(text, False) for text, _ in REFUSED]:
            with self.subTest(text):
                town = write_feed(self.room / "town", {**agency(), "desk.toml": text})
                said = program.run(["deficits", town]).text.decode()
                self.assertRegex(said, r"^feed refused: desk\.toml: " + ("bad a" if is_toml else "not TOML"))


if __name__ == "__main__":
    unittest.main()
