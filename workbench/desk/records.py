"""Comma-separated files as the program reads them, record by record.

A byte-order mark is passed over, blank lines are not counted, and a record that is shorter than the header is padded.
Bytes that are not UTF-8 stand as surrogates, so that names are compared and written by their bytes.
"""
from __future__ import annotations

import csv
import io
import itertools
import re
from collections.abc import Callable, Collection, Iterable, Iterator, Mapping, Sequence
from contextlib import contextmanager
from pathlib import Path
from typing import TextIO

from desk.errors import DeskError
from desk.files import reason, refuse_no_file

MOST_FIELD = 1 << 20
"""The most characters of a field: a quote that is never closed takes in all that is behind it."""

_NEEDS_QUOTES = re.compile('["\r\n]')


class Records:
    """The header and the records of a file. They are read once, while they are asked for."""

    def __init__(self, name: str, lines: Iterable[str]) -> None:
        self.name = name
        self._numbered = self._read(lines)
        self.header: list[str] = [column.strip(" ") for column in next(self._numbered, (0, []))[1]]

    def _read(self, lines: Iterable[str]) -> Iterator[tuple[int, list[str]]]:
        """The header as record 0, and each record with its number, as wide as the header at least."""
        csv.field_size_limit(MOST_FIELD)
        number, width = 0, 0
        try:
            for fields in csv.reader(lines):
                if not fields:
                    continue
                if len(fields) < width:
                    fields += [""] * (width - len(fields))
                yield number, fields
                width = width or len(fields)
                number += 1
        except csv.Error as error:
            raise DeskError(f"{self.name} record {number}: {error}: is a quote not closed?") from error
        except OSError as error:
            raise DeskError(f"{self.name}: {reason(error)}") from error

    def __iter__(self) -> Iterator[tuple[int, list[str]]]:
        """Each record with its number. The first one after the header has number 1."""
        return self._numbered

    def find(self, name: str) -> int | None:
        """The place of the first column of this name, or None where there is none."""
        return self.header.index(name) if name in self.header else None

    def column(self, name: str) -> int:
        """The place of the first column of this name, or a DeskError where there is none."""
        if not self.header:
            raise DeskError(f"{self.name}: no header")
        at = self.find(name)
        if at is None:
            raise DeskError(f"{self.name}: no column {name}")
        return at


@contextmanager
def open_records(path: Path) -> Iterator[Records]:
    """The records of a file, which is open inside the block. A file that cannot be opened is a DeskError."""
    refuse_no_file(path)
    try:
        file = open(path, "rb", buffering=1 << 20)
    except FileNotFoundError as error:
        raise DeskError(f"{path.name}: missing in {path.parent}") from error
    except OSError as error:
        raise DeskError(f"{path}: {reason(error)}") from error
    with file, _decoded(file) as lines:
        yield Records(path.name, lines)


def first_records(path: Path, column: str) -> dict[str, int]:
    """The names in a column of a file, each with its first record; none where the file is not there."""
    if not path.is_file():
        return {}
    found: dict[str, int] = {}
    with open_records(path) as records:
        at = records.column(column)
        for number, fields in records:
            found.setdefault(fields[at], number)
    return found


def copy_records(source: Path, target: Path, columns: Iterable[str], keeps: Callable[[str], bool]) -> None:
    """Writes a file with those records alone whose field in one of these columns is kept."""
    with open_records(source) as records, open(target, "w", encoding="utf-8", errors="surrogateescape", newline="") as file:
        places = [records.column(column) for column in columns]
        file.write(record_text(records.header))
        for _, fields in records:
            if any(keeps(fields[at]) for at in places):
                file.write(record_text(fields))


def records_of(name: str, text: str) -> Records:
    """The records of a text. Errors in it have this name."""
    return Records(name, io.StringIO(text.removeprefix("\ufeff"), newline=""))


def _decoded(file: io.BufferedReader) -> TextIO:
    """The characters of a file behind its byte-order mark, with its line ends as they are."""
    if file.peek(3)[:3] == b"\xef\xbb\xbf":
        file.read(3)
    return io.TextIOWrapper(file, encoding="utf-8", errors="surrogateescape", newline="")


def with_rows(content: bytes, rows: Iterable[Mapping[str, str]]) -> bytes:
    """The bytes of a file with records behind its own, in the order of its columns."""
    header = records_of("", content.decode("utf-8", "surrogateescape")).header
    more = "".join(row_text(header, row) for row in rows)
    ended = not more or content.endswith((b"\n", b"\r"))
    return content + (b"" if ended else b"\n") + more.encode("utf-8", "surrogateescape")


def without_records(content: bytes, numbers: Collection[int]) -> bytes:
    """The bytes of a file without the records of these numbers. All else stays as it is, blank lines too."""
    text = content.decode("utf-8", "surrogateescape")
    mark = "\ufeff" if text.startswith("\ufeff") else ""
    read: list[str] = []
    records = Records("", _noted(io.StringIO(text.removeprefix(mark), newline=""), read))
    left = [mark]
    for number, _ in itertools.chain([(0, [])], records):
        left += itertools.takewhile(lambda line: not line.strip("\r\n"), read) if number in numbers else read
        read.clear()
    return "".join(left + read).encode("utf-8", "surrogateescape")


def _noted(lines: Iterable[str], read: list[str]) -> Iterator[str]:
    """Lines, each of which is put into a list once it is asked for."""
    for line in lines:
        read.append(line)
        yield line


def is_utf8(text: str) -> bool:
    """Whether a text that was read from a file has no byte that is not UTF-8."""
    try:
        text.encode("utf-8")
    except UnicodeEncodeError:
        return False
    return True


def is_blank(fields: Sequence[str]) -> bool:
    """Whether a record has commas alone, as a spreadsheet writes an empty line."""
    return not any(field.strip() for field in fields)


def is_wide(fields: Sequence[str], width: int) -> bool:
    """Whether a record has more than empty fields behind those of a header so wide."""
    return len(fields) > width and any(fields[width:])


def record_text(fields: Sequence[str]) -> str:
    """A record as it is written: in quotes only where a field needs them, with a line feed at its end."""
    text = ",".join(fields)
    if not text or _NEEDS_QUOTES.search(text) or text.count(",") >= len(fields):
        text = ",".join(_quoted(field) for field in fields) or '""'
    return text + "\n"


def row_text(header: Sequence[str], values: Mapping[str, str]) -> str:
    """A record with these values in the columns of a header, and with empty fields in the others."""
    return record_text([values.get(column, "") for column in header])


def _quoted(field: str) -> str:
    """A field in quotes where it needs them."""
    if "," in field or _NEEDS_QUOTES.search(field):
        return '"' + field.replace('"', '""') + '"'
    return field
