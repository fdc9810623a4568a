r"""TOML 1.1, which the program reads. The library reads TOML 1.0, so what only the newer version has is written as the older.

`{a = 1, }` becomes `{a = 1  }`, and line ends between braces become tabs. The escapes `\e` and `\x1B` become `\u001B`, and the time
`07:30` becomes `07:30:00`.
"""
from __future__ import annotations

import json
import re
import tomllib
from bisect import bisect_left
from collections.abc import Mapping
from typing import Any

TOKEN = re.compile(r'''"""(?:[^\\]|\\.)*?"{3,5}|\'\'\'.*?'{3,5}|"(?:[^"\\\n]|\\.)*"|'[^'\n]*'|["'].*|'''
                   r"""#[^\n]*|[ \t]+|[^\s"'#{}\[\],=]+|.""", re.DOTALL)
"""A text in quotes, what stands behind a quote that is not closed, a comment, blanks, a word, or a sign."""

CLOSED = re.compile(r"(?:[ \t\n]++|#[^\n]*+)*+\}")
ESCAPE = re.compile(r"\\(?:(e)|x([0-9A-Fa-f]{2})|.)", re.DOTALL)
TIME = re.compile(r"((?:[0-9]{4}-[0-9]{2}-[0-9]{2}[Tt])?[0-9]{2}:[0-9]{2})((?:[Zz]|[+-][0-9]{2}:[0-9]{2})?)")
WHERE = re.compile(r" \(at (?:line ([0-9]+), column ([0-9]+)|end of document)\)")

MOST_PARTS = 80
"""The most parts of a key, as `a.b.c` has three. The library takes the square of their number of time, and the program reads no more."""

UNCLOSED = "Unclosed inline table"
"""What the library says where neither a comma nor a brace stands behind an entry."""

BEGINS, KEY, EQUALS, VALUE = range(4)
"""What was read last of an entry between braces. Behind the first and the last of these a line may end."""


class TomlError(ValueError):
    """A text is not TOML: why, and in which line, or at the end of the text where that is None."""

    def __init__(self, why: str, line: int | None) -> None:
        super().__init__(f"{why} (at {'the end' if line is None else f'line {line}'})")
        self.why = why
        self.line = line


def read_toml(text: str) -> dict[str, Any]:
    """What a text says; a TomlError where it is not TOML.

    A number of too many digits is a ValueError, and tables that stand too deep in one another are a RecursionError.
    """
    refuse_long_keys(text)
    try:
        return tomllib.loads(text)
    except tomllib.TOMLDecodeError:
        older = Older(text.replace("\r\n", "\n"))
    try:
        return tomllib.loads(older.text)
    except tomllib.TOMLDecodeError as error:
        raise older.error(str(error)) from error


def refuse_long_keys(text: str) -> None:
    """A RecursionError where a key has more parts than one may have."""
    points = 0
    for token in TOKEN.finditer(text):
        if token[0][0] in "=,{}[]\n#":
            points = 0
        elif token[0][0] not in "\"' \t":
            points += token[0].count(".")
        if points >= MOST_PARTS:
            raise RecursionError(f"a key has more than {MOST_PARTS} parts")


class Older:
    """A text of TOML 1.1, written as one of TOML 1.0. What is neither stays as it is.

    `joined` has the places of line ends that became tabs, and `braces` those of each brace and of the one that closes it.
    """

    def __init__(self, text: str) -> None:
        self.parts: list[str] = []
        self.size = 0
        self.joined: list[int] = []
        self.braces: list[tuple[int, int]] = []
        self.open: list[tuple[str, int]] = []
        self.states = [VALUE]
        for token in TOKEN.finditer(text):
            self.put(self.as_older(token[0], text, token.end()))
        self.braces += [(at, self.size) for letter, at in self.open if letter == "{"]
        self.text = "".join(self.parts)

    def put(self, part: str) -> None:
        """Adds a part of the older text."""
        self.parts.append(part)
        self.size += len(part)

    def as_older(self, token: str, text: str, end: int) -> str:
        """A token of a text, behind which the text goes on at this place, as the older version has it."""
        inside = bool(self.open) and self.open[-1][0] == "{"
        if token[0] in " \t":
            return token
        if token[0] == "#" or token == "\n":
            return self.blank(token) if inside and self.states[-1] in (BEGINS, VALUE) else token
        if token == "," and inside and self.states[-1] == VALUE:
            self.states[-1] = BEGINS
            return " " if CLOSED.match(text, end) else token
        if token in "}]":
            self.close()
            return token
        self.states[-1] = EQUALS if token == "=" else VALUE if self.states[-1] in (EQUALS, VALUE) else KEY
        if token in "{[":
            self.open.append((token, self.size))
            self.states.append(BEGINS if token == "{" else VALUE)
        return as_older_value(token)

    def blank(self, token: str) -> str:
        """A line end or a comment between braces, as the older version has it."""
        if token == "\n":
            self.joined.append(self.size)
            return "\t"
        return ""

    def close(self) -> None:
        """A brace or a bracket closes."""
        if self.open:
            letter, at = self.open.pop()
            self.states.pop()
            if letter == "{":
                self.braces.append((at, self.size))

    def error(self, message: str) -> TomlError:
        """The error that the library has found in the older text. The error of a table that is not closed names where it
        begins."""
        why, found = WHERE.sub("", message), WHERE.search(message)
        is_inside = found is not None and found[1] is not None
        at = self.place(int(found[1]), int(found[2])) if is_inside else self.size
        begin = max((begin for begin, end in self.braces if begin < at <= end), default=None)
        if begin is not None and (why == UNCLOSED or not is_inside):
            return TomlError(UNCLOSED, self.line(begin))
        return TomlError(why, self.line(at) if is_inside else None)

    def place(self, line: int, column: int) -> int:
        """Where a line and a column stand in the older text, both counted from 1."""
        begin = 0
        for _ in range(line - 1):
            begin = self.text.index("\n", begin) + 1
        return begin + column - 1

    def line(self, at: int) -> int:
        """The line of the text in which a place of the older text stands."""
        return 1 + self.text.count("\n", 0, at) + bisect_left(self.joined, at)


def as_older_value(token: str) -> str:
    """A text in double quotes, or a time, as the older version has it. Other tokens stay as they are."""
    if token[0] == '"':
        return ESCAPE.sub(_as_older_escape, token)
    time = TIME.fullmatch(token)
    return f"{time[1]}:00{time[2]}" if time else token


def _as_older_escape(found: re.Match[str]) -> str:
    """An escape as the older version has it."""
    return r"\u001B" if found[1] else rf"\u00{found[2]}" if found[2] else found[0]


def toml_text(settings: Mapping[str, Any]) -> str:
    """Settings as a text of TOML: texts, whole numbers, lists of texts, and tables of texts and whole numbers."""
    tables = {key: value for key, value in settings.items() if isinstance(value, dict)}
    lines = [f"{quoted(key)} = {_value_text(value)}" for key, value in settings.items() if key not in tables]
    for key, table in tables.items():
        lines += [f"[{quoted(key)}]", *(f"{quoted(name)} = {_value_text(value)}" for name, value in table.items())]
    return "".join(line + "\n" for line in lines)


def _value_text(value: Any) -> str:
    """A value of TOML."""
    if isinstance(value, list):
        return "[" + ", ".join(map(_value_text, value)) + "]"
    return quoted(value) if isinstance(value, str) else str(value)


def quoted(text: str) -> str:
    """A text in double quotes."""
    return json.dumps(text, ensure_ascii=False).replace("\x7f", "\\u007F")
