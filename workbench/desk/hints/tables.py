"""Why a file of the feed cannot be read as it should: its encoding, its separators, its header, its records."""
from __future__ import annotations

from collections.abc import Iterator
from pathlib import Path

from desk.errors import DeskError
from desk.files import reason
from desk.hints.forms import COLUMNS, DIFFERENT, FIELDS
from desk.hints.names import Known, folded, shown
from desk.limits import MOST_BYTES
from desk.records import is_utf8, open_records

HEAD = 1 << 16
"""How many bytes at the front of a file are looked at for its kind."""

KINDS = {
    b"\xff\xfe": "it is UTF-16", b"\xfe\xff": "it is UTF-16", b"PK\x03\x04": "it is a zip or a spreadsheet",
    b"\xd0\xcf\x11\xe0": "it is a spreadsheet", b"%PDF": "it is a PDF", b"{\\rtf": "it is a text with formats",
    b"SQLite format 3\0": "it is a database", b"\x1f\x8b": "it is packed by gzip"}
"""How files begin that are no text in UTF-8, and what they are."""

SAME = {"same terminal": ("from", "to"), "same trip": ("before", "after")}
"""The refusals of records that name one thing twice, with the two columns."""

SEPARATORS = {";": "semicolons", "\t": "tabs", "|": "bars"}
"""What other programs write between fields."""


def kind_of(path: Path) -> str | None:
    """What a file is that is no text in UTF-8, as its first bytes tell; None where they do not."""
    try:
        with open(path, "rb") as file:
            head = file.read(HEAD)
    except OSError as error:
        raise DeskError(f"{path}: {reason(error)}") from error
    for begin, kind in KINDS.items():
        if head.startswith(begin):
            return kind
    return "it is UTF-16" if len(head) > 3 and 3 * head.count(0) > len(head) else None


def save_as(path: Path) -> str:
    """How a planner saves a file so that it can be read."""
    return "Save it as plain text in UTF-8" if path.suffix == ".toml" else "Save it as CSV in UTF-8, with commas"


def header_hints(path: Path, column: str) -> list[str]:
    """Why a required column is not found in the header of a file."""
    name, kind = path.name, kind_of(path)
    if kind:
        return [f"{name}: {kind}. {save_as(path)}."]
    with open_records(path) as records:
        header = records.header
    columns = COLUMNS.get(name, (column,))
    for letter, words in SEPARATORS.items():
        if letter in ",".join(header) and not {column, *columns} & set(header):
            return [f"{name}: {words} stand between its fields. Write commas in their place."]
    if not header:
        return []
    near = _near_columns(header, columns)
    if column in near:
        return [f"{name}: the header has {shown(near[column])} in place of `{column}`. Write `{column}`{_why(near[column])}."]
    if not near and not set(columns) & set(header):
        return [f"{name}: its first record {shown(','.join(header))} is no header. Write `{','.join(columns)}` above it."]
    return [f"{name}: the header is {shown(','.join(header))}. The columns are `{','.join(columns)}`."]


def _near_columns(header: list[str], columns: tuple[str, ...]) -> dict[str, str]:
    """The required columns that the header names in another way, each with that name."""
    spelt = {folded(name).replace("_", "").replace("-", "").strip("\ufeff\"'"): name for name in header if name not in columns}
    near = {column: spelt[column.replace("_", "")] for column in columns if column.replace("_", "") in spelt}
    for column in columns:
        if column not in near and column not in header:
            found = Known(spelt).nearest(column.replace("_", ""))
            if found and spelt[found] not in near.values():
                near[column] = spelt[found]
    return near


def _why(name: str) -> str:
    """What is wrong with the name of a column, where it is no letter of it."""
    if name.startswith("\ufeff"):
        return ", without the second byte-order mark in front"
    if '"' in name or "'" in name:
        return ", and no space before a quote"
    if name.lower() != name:
        return " in small letters"
    return ""


def empty_hints(path: Path) -> list[str]:
    """Why a file has no header."""
    columns = ",".join(COLUMNS.get(path.name, ()))
    return [f"{path.name}: it has no record. Write the header `{columns}`, or take the file away."] if columns else []


def length_hints(path: Path) -> list[str]:
    """How long a file is that is too long."""
    try:
        size = path.stat().st_size
    except OSError:
        return []
    return [f"{path.name}: it has {size:,} bytes, and {MOST_BYTES:,} are read at the most."] if size > MOST_BYTES else []


def record_hints(path: Path, number: int, text: str) -> list[str]:
    """What a record has that is refused with this text."""
    header, fields = record_at(path, number)
    if fields is None:
        return []
    place = f"{path.name} record {number}"
    if text == "too many fields":
        return [f"{place}: it has {len(fields)} fields and the header {len(header)}. A field with a comma in it stands in double quotes."]
    if text == "duplicate":
        return _duplicate_hints(path, number, place, header, fields)
    for same, (first, second) in SAME.items():
        if text == same and first in header:
            return [f"{place}: {shown(fields[header.index(first)])} stands in `{first}` and in `{second}`. Take the record out."]
    what, _, column = text.partition(" ")
    if text.endswith(" not UTF-8"):
        return _bytes_hints(place, header, fields, text.removesuffix(" not UTF-8"))
    if what not in ("bad", "empty") or column not in header:
        return []
    value = fields[header.index(column)]
    if what == "bad" and column in FIELDS:
        return [f"{place}: `{column}` has {shown(value)}. It must be {FIELDS[column]}.{_of_value(column, value)}"]
    if what == "empty" and not any(fields):
        return [f"{place}: it has commas alone. Take it out."]
    if what == "empty":
        return [f"{place}: `{column}` is empty, or the record has too few commas: {shown(','.join(fields))}."]
    return []


def _of_value(column: str, value: str) -> str:
    """What else is known of a value that is not of its form."""
    parts = value.strip(" ").split(":")
    if column.endswith("_time"):
        if len(parts) == 2:
            return " The seconds are missing."
        if len(parts) == 3 and all(part.isdecimal() for part in parts):
            return " Minutes and seconds have two digits, and are at most 59."
    if column.endswith("date") and any(letter in value for letter in "-./"):
        return " Write no hyphens, points or slashes."
    return ""


def _duplicate_hints(path: Path, number: int, place: str, header: list[str], fields: list[str]) -> list[str]:
    """Which record before this one has the same names."""
    places = [header.index(column) for column in DIFFERENT.get(path.name, ()) if column in header]
    key = [fields[at] for at in places]
    earlier = [(before, other) for before, other in numbered(path) if before < number]
    for before, other in earlier:
        if places and [other[at] for at in places] == key:
            named = " and ".join(map(shown, key))
            return [f"{place}: {named} stood before, in record {before}. Take one of the two out."]
    return _kept_hints(place, header, fields, earlier) if path.name == "pairs.csv" else []


def _kept_hints(place: str, header: list[str], fields: list[str], earlier: list[tuple[int, list[str]]]) -> list[str]:
    """Which record of `pairs.csv` before this one keeps one of its trips with another one."""
    if not header or not set(COLUMNS["pairs.csv"]) <= set(header):
        return []
    before, after, rule = (header.index(column) for column in COLUMNS["pairs.csv"])
    for number, other in earlier:
        if other[rule].strip(" ") == "keep":
            for at, there in ((before, after), (after, before)):
                if other[at] == fields[at]:
                    return [f"{place}: record {number} keeps {shown(fields[at])} with {shown(other[there])}. Take one of the two out."]
    return []


def _bytes_hints(place: str, header: list[str], fields: list[str], column: str) -> list[str]:
    """Which bytes of a field are not UTF-8, and what they are in the encoding that Windows writes."""
    values = [fields[header.index(column)]] if column in header else fields
    for value in values:
        if not is_utf8(value):
            meant = value.encode("utf-8", "surrogateescape").decode("cp1252", "replace")
            return [f"{place}: a field is not UTF-8. In Windows-1252 it is {shown(meant)}. Save the file as UTF-8."]
    return []


def numbered(path: Path) -> Iterator[tuple[int, list[str]]]:
    """The records of a file with their numbers."""
    with open_records(path) as records:
        yield from records


def record_at(path: Path, number: int) -> tuple[list[str], list[str] | None]:
    """The header of a file, and its record of this number, or None where it has fewer."""
    with open_records(path) as records:
        if number == 0:
            return records.header, records.header
        return records.header, next((fields for at, fields in records if at == number), None)
