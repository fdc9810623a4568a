"""Scripts of edits: their records, what the program says of each, and which edits are in force."""
from __future__ import annotations

from collections.abc import Iterable
from dataclasses import dataclass

from desk.errors import DeskError
from desk.records import record_text, records_of
from desk.texts import Json
from desk.written_texts import edit_text, line_of_record

SHOW = b"show\n"
"""The record that asks for the plan."""


@dataclass(frozen=True, slots=True)
class Record:
    """A record of a script, with the line that the program puts for it."""

    fields: tuple[str, ...]
    ok: bool
    said: str

    @property
    def text(self) -> str:
        """The record as a line of a file, without the end of the line."""
        return record_text(self.fields).removesuffix("\n")


def with_record(script: bytes, record: bytes) -> bytes:
    """A script with a record behind it, which begins on a line of its own."""
    ended = not script or script.endswith((b"\n", b"\r"))
    return script + (b"" if ended else b"\n") + record


def with_show(script: bytes) -> bytes:
    """A script with a record behind it that asks for the plan."""
    return with_record(script, SHOW)


def with_edits(script: bytes, edits: Iterable[Json]) -> bytes:
    """A script with these edits behind it, in their order."""
    return with_record(script, "".join(edit_text(edit) + "\n" for edit in edits).encode("utf-8", "surrogateescape"))


def fields_of(name: str, script: bytes) -> list[tuple[str, ...]]:
    """The fields of each record of a script, without the spaces and the empty fields that the program passes over."""
    found = []
    for _, fields in records_of(name, "script\n" + script.decode("utf-8", "surrogateescape").removeprefix("\ufeff")):
        while len(fields) > 1 and not fields[-1]:
            fields.pop()
        found.append((fields[0].strip(" "), *fields[1:]))
    return found


def refuse_open_quote(name: str, script: bytes) -> None:
    """A DeskError where a quote takes in what would be put behind a script."""
    if fields_of(name, with_show(script))[-1] != ("show",):
        raise DeskError(f"{name}: a quote is not closed, and takes in all that stands behind it")


def judged(name: str, script: bytes, told: list[Json], word: str = "record") -> list[Record]:
    """The records of a script with what the program says of them; a DeskError where it reads other records."""
    found = fields_of(name, script)
    if len(found) != len(told):
        raise DeskError(f"{name}: the program reads {len(told)} records and the workbench {len(found)}")
    return [Record(fields, said["ok"], line_of_record(word, said)) for fields, said in zip(found, told)]


def standing(records: list[Record]) -> tuple[list[Record], list[Record]]:
    """The edits that stand after a script, and those that were undone and can be done again, the next one last."""
    done: list[Record] = []
    undone: list[Record] = []
    for record in records:
        word = record.fields[0]
        if not record.ok or word == "show":
            continue
        if word == "undo":
            undone += done[-1:]
            del done[-1:]
        elif word == "redo":
            done += undone[-1:]
            del undone[-1:]
        else:
            done.append(record)
            undone.clear()
    return done, undone
