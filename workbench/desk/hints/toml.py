"""The line at which a `desk.toml` stops to be TOML, and what a planner would write in its place."""
from __future__ import annotations

import re
from collections.abc import Iterator
from pathlib import Path
from typing import Any

from desk.files import read_bytes
from desk.hints.names import shown
from desk.hints.tables import kind_of, save_as
from desk.toml import UNCLOSED, TomlError, read_toml

ENTRY = re.compile(r"""(?P<key>"[^"]*"\s*|'[^']*'\s*|[^=:"']*)(?P<sign>[=:])(?P<value>.*)""")
BARE = re.compile(r"[A-Za-z0-9_-]+(?:\.[A-Za-z0-9_-]+)*")
WORDS = re.compile(r"[^\W\d_][\w -]*")
CURLY = "“”„‘’«»"

LEAST_INTEGER, MOST_INTEGER = -(1 << 63), (1 << 63) - 1
"""The least and the greatest integer of TOML as the program reads it."""

MOST_DEPTH = 80
"""How many tables and arrays may stand in one another."""

TOO_DEEP, TOO_LARGE = "its tables and arrays stand too deep in one another.", "a number in it is too large."

REASONS = {"overwrite": "this key stood before", "twice": "this table stood before", "Expected '='": "`=` is missing behind a key",
           UNCLOSED: "a comma or the closing brace is missing in the table that begins here"}
"""What some words in an error of the reader mean for a planner."""


def toml_hints(path: Path) -> list[str]:
    """What is wrong with a file that is not TOML."""
    kind = kind_of(path)
    if kind:
        return [f"{path.name}: {kind}. {save_as(path)}."]
    raw = read_bytes(path).removeprefix(b"\xef\xbb\xbf")
    try:
        text = raw.decode("utf-8")
    except UnicodeDecodeError as error:
        line = raw.count(b"\n", 0, error.start) + 1
        return [f"{path.name} line {line}: a byte is not UTF-8. Save the file as UTF-8."]
    if text.startswith("\ufeff"):
        return [f"{path.name}: two byte-order marks stand at its front. Take one out."]
    try:
        return _value_hints(path, read_toml(text))
    except TomlError as error:
        return [_line_hint(path, text.split("\n"), error)]
    except RecursionError:
        return [f"{path.name}: {TOO_DEEP}"]
    except ValueError:
        return [f"{path.name}: {TOO_LARGE}"]


def _value_hints(path: Path, value: Any) -> list[str]:
    """That an integer does not fit in 64 bits, or that tables stand too deep, where that is so."""
    found = list(_values(value, 0))
    if any(depth > MOST_DEPTH for _, depth in found):
        return [f"{path.name}: {TOO_DEEP}"]
    integers = [item for item, _ in found if isinstance(item, int)]
    return [] if all(LEAST_INTEGER <= item <= MOST_INTEGER for item in integers) else [f"{path.name}: {TOO_LARGE}"]


def _values(value: Any, depth: int) -> Iterator[tuple[Any, int]]:
    """A value of TOML and all within it, each with the number of tables and arrays round it."""
    yield value, depth
    for item in value.values() if isinstance(value, dict) else value if isinstance(value, list) else ():
        yield from _values(item, depth + 1)


def _line_hint(path: Path, lines: list[str], error: TomlError) -> str:
    """The line of an error, and what would stand there rightly."""
    last = max((at for at, line in enumerate(lines, 1) if line.strip()), default=1)
    number = min(error.line or last, last)
    line = lines[number - 1].strip()
    why = next((reason for words, reason in REASONS.items() if words in error.why), None)
    return f"{path.name} line {number}: {shown(line)}: {_mended(line) or why or error.why[:1].lower() + error.why[1:]}."


def _mended(line: str) -> str | None:
    """What a planner would write in place of a line; None where that is not known."""
    if any(letter in CURLY for letter in line):
        return 'write straight quotes, `"`'
    if line.startswith(("//", ";", "--")):
        return "a comment begins with `#`"
    entry = ENTRY.fullmatch(line.partition(" #")[0])
    key, value = (entry["key"].strip(), entry["value"].strip()) if entry else ("", "")
    if entry is None or not key:
        return None
    if not value:
        return f"a value is missing behind `{entry['sign']}`"
    if value.count('"') % 2:
        return "a double quote is not closed"
    if point := re.fullmatch("([0-9]+),[0-9]+", value):
        return f"minutes are whole numbers without a comma: write `{key} = {int(point[1])}` or `{key} = {int(point[1]) + 1}`"
    name, meant = _name(key), _value(value)
    return None if (name, entry["sign"], meant) == (key, "=", value) else f"write `{name} = {meant}`"


def _name(key: str) -> str:
    """A key as TOML has it: in double quotes where it is more than letters of ASCII, digits, `_` and `-`."""
    return key if key[0] in "\"'" or BARE.fullmatch(key) else f'"{key}"'


def _value(value: str) -> str:
    """A value as it may be meant: texts in double quotes, numbers without a unit and without zeros in front."""
    if value.startswith("[") and value.endswith("]"):
        items = [item.strip() for item in value[1:-1].split(",") if item.strip()]
        return "[" + ", ".join(map(_value, items)) + "]"
    if WORDS.fullmatch(value) and value not in ("true", "false"):
        return f'"{value}"'
    number = re.fullmatch(r"(?=[0-9])0*+([0-9]*+) *+[A-Za-z.]*+", value)
    return number[1] or "0" if number else value


def entry_line(path: Path, name: str) -> tuple[int, str] | None:
    """The first line whose key begins with this name and a point, with its number."""
    text = read_bytes(path).decode("utf-8", "replace")
    for number, line in enumerate(text.split("\n"), 1):
        if re.match(rf"\s*{re.escape(name)}\s*\.", line):
            return number, line.strip()
    return None


def quoted_line(line: str) -> str:
    """The line of an entry with its key in double quotes."""
    key, _, value = line.partition("=")
    return f'"{key.strip()}" = {value.strip()}'
