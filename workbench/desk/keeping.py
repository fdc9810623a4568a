"""The script beside the journal, and `keep` from the page: the edits that the journal does not have yet go into it.

`keep` does all records of `edits.csv` again behind those of the journal. Where the script begins with the journal's records, or with
its last ones, the program keeps what is new from a room. So the planner's script is whole at each moment.
"""
from __future__ import annotations

from desk.answers import tell
from desk.files import read_bytes
from desk.hints.edits import is_edit
from desk.hints.journal import JOURNAL, journal_text
from desk.rooms import room_of
from desk.scripts import Record, fields_of
from desk.times import format_minute, parse_minute
from desk.town import Town

NOTHING = "All edits stand in the journal: there is nothing new to keep.\n"


def keep(town: Town, records: list[Record]) -> str:
    """Keeps what is new of a script whose records the program has judged. Gives what `keep` puts."""
    edits = [record for record in records if record.ok and record.fields[0] != "show"]
    count = kept_already([canonical(record.fields) for record in edits], journal_records(town))
    if count == 0:
        return tell("keep", town.folder)
    if count == len(edits):
        return NOTHING
    fresh = "".join(record.text + "\n" for record in edits[count:])
    with room_of(town, {"edits.csv": fresh.encode("utf-8", "surrogateescape")}) as room:
        # The program follows the link, and has the files of the journal beside the journal itself.
        (room / JOURNAL).symlink_to(town.path(JOURNAL).resolve())
        return tell("keep", town.folder, room)


def journal_records(town: Town) -> list[tuple[str, ...]]:
    """The records of the journal, none where there is no journal."""
    return fields_of("journal", journal_text(town.path(JOURNAL))) if town.has(JOURNAL) else []


def canonical(fields: tuple[str, ...]) -> tuple[str, ...]:
    """The fields of an accepted edit as the journal has them: a shift with its sign, minutes as `HH:MM`."""
    if fields[0] == "shift":
        return *fields[:2], f"{int(fields[2]):+d}"
    if fields[0] == "extra":
        return *fields[:4], *(format_minute(parse_minute(text) or 0) for text in fields[4:])
    return fields


def compared(town: Town) -> tuple[int, list[int]]:
    """How many records at the front of the script stand in the journal too, and the numbers of the edits that do not."""
    kept = as_kept(journal_records(town))
    script = as_kept(fields_of("edits.csv", read_bytes(town.path("edits.csv"))))
    count = kept_already(script, kept)
    return count, [number for number, edit in enumerate(script, 1) if number > count and is_edit(edit) and edit[0] != "show"]


def as_kept(records: list[tuple[str, ...]]) -> list[tuple[str, ...]]:
    """The records of a script, edits as the journal has them."""
    return [canonical(fields) if is_edit(fields) else fields for fields in records]


def kept_already(script: list[tuple[str, ...]], kept: list[tuple[str, ...]]) -> int:
    """How many records at the front of a script are all of the journal, as after `kept`, or its last ones, as after `keep`."""
    if kept and script[:len(kept)] == kept:
        return len(kept)
    edits = [(number, edit) for number, edit in enumerate(script, 1) if is_edit(edit) and edit[0] != "show"]
    for count in range(min(len(edits), len(kept)), 0, -1):
        if [edit for _, edit in edits[:count]] == kept[-count:]:
            return edits[count - 1][0]
    return 0
