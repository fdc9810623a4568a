"""What runs that were cut off have left half done in a town: the next command undoes it, and says so.

Older workbenches put a part of `edits.csv` in its place while `keep` ran, and the whole script beside it.
"""
from __future__ import annotations

import os
from pathlib import Path

from desk.edits import finish_taking, is_taking
from desk.files import read_bytes, sync_folder
from desk.locks import locked
from desk.new.room import BEFORE, undo

SCRIPT, WHOLE, PART = "edits.csv", ".whole-edits.csv", ".part-edits.csv"
"""The script that an older workbench has shortened, the whole of it, and the part that it has put in its place."""


def mend(town: Path) -> list[str]:
    """Puts back what is half done in a town, and tells what was done, in a line for each."""
    if not is_taking(town) and not any(os.path.lexists(town / name) for name in (WHOLE, PART, BEFORE)):
        return []
    with locked(town):
        told = [_put_back(town), undo(town), _finish(town)]
        sync_folder(town)
    return [line for line in told if line]


def _put_back(town: Path) -> str:
    """Puts back the whole script where a part stands in its place. Where somebody has changed the part, the whole stands beside it."""
    path, whole, part = town / SCRIPT, town / WHOLE, town / PART
    told = ""
    if whole.is_file():
        stands, wanted = path.is_file() and read_bytes(path), read_bytes(whole)
        if stands in (False, wanted) or part.is_file() and stands == read_bytes(part):
            told = f"{path} was put back: a Keep that was cut off had left a part of it in its place" if stands != wanted else ""
            os.replace(whole, path)
        else:
            kept = _free(town)
            told = (f"a Keep that was cut off had left a part of {path} in its place, and that has changed since. The whole script "
                    f"of then is {kept}: look which records are missing")
            os.replace(whole, kept)
    part.unlink(missing_ok=True)
    return told


def _finish(town: Path) -> str:
    """Ends a `take` that was cut off, or takes it back."""
    if not is_taking(town):
        return ""
    finish_taking(town)
    return f"a take in {town} was cut off: each edit that stands is now in edits.csv or in planner_edits.csv, and in one of them"


def _free(town: Path) -> Path:
    """A name for the whole script under which nothing stands."""
    names = (town / f"before-keep{'' if number == 1 else f'-{number}'}-{SCRIPT}" for number in range(1, 1 << 30))
    return next(path for path in names if not os.path.lexists(path))
