"""Why `check` says no, where more is known than it says: files that are not there, or are older than the feed."""
from __future__ import annotations

from pathlib import Path

from desk.files import reason
from desk.hints.files import like_names
from desk.hints.forms import COLUMNS
from desk.hints.names import shown
from desk.hints.tables import header_hints, record_at
from desk.rooms import FEED_FILES
from desk.town import Town

NO = "no: "
CLAIM = ("blocks.csv", "prices.csv")


def claim_hints(town: Town, text: str) -> list[str]:
    """What is known of a `no` of `check`, the last line of a text."""
    line = text.removesuffix("\n").rpartition("\n")[2]
    if not line.startswith(NO):
        return []
    said = line.removeprefix(NO)
    for name in CLAIM:
        if said == f"{name}: missing":
            return _missing(town, name)
        if said.startswith(f"{name} record ") and said.endswith(": not in form"):
            return _not_in_form(town.path(name), int(said.split(" ")[2].rstrip(":")))
    return _older(town)


def _missing(town: Town, name: str) -> list[str]:
    """That a file of the claim has another name, or is to be written."""
    like = next(iter(like_names(town.folder, name)), None)
    if like:
        return [f"{town.path(like)} has nearly the name of {name}. Rename it."]
    return [f"{name} is not there. `./desk blocks {town.folder}` writes it."]


def _not_in_form(path: Path, number: int) -> list[str]:
    """Why a record of the claim is not in form."""
    header, fields = record_at(path, number)
    missing = next((column for column in COLUMNS[path.name] if column not in header), None)
    if missing:
        return header_hints(path, missing)
    if number == 0 or fields is None:
        return []
    if len(fields) > len(header):
        return [f"{path.name} record {number}: it has {len(fields)} fields and the header {len(header)}."]
    return [f"{path.name} record {number}: {shown(','.join(fields))}. Names are not empty, numbers have digits alone, "
            "and the records of a block stand together."]


def _older(town: Town) -> list[str]:
    """Which files of the feed were written after the claim."""
    try:
        written = min(town.path(name).stat().st_mtime_ns for name in CLAIM)
        newer = [name for name in (*FEED_FILES, "edits.csv") if town.has(name) and town.path(name).stat().st_mtime_ns > written]
    except OSError as error:
        return [f"{town.folder}: {reason(error)}."]
    if not newer:
        return []
    return [f"{', '.join(newer)} changed after blocks.csv and prices.csv were written. `./desk blocks {town.folder}` plans anew."]
