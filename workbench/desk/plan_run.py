"""The run of `./desk plan` over one folder, a day type or a town of one day, and what it leaves there: its plan and `plan.json`.

Each run writes into its own folder alone. What it needs of the plans of other day types it makes itself, unless it stands there. So
the runs may be made on one machine or on many, in any order.
"""
from __future__ import annotations

import hashlib
import json
from collections.abc import Callable, Iterator
from functools import cache
from pathlib import Path
from typing import Any

from desk.answers import ask, tell
from desk.errors import DeskError
from desk.files import read_bytes, read_text, write_whole
from desk.hints.forms import WRITTEN
from desk.hints.refusals import refusal_hints
from desk.rooms import FEED_FILES
from desk.toml import toml_text
from desk.town import STATED, Town
from desk.written_texts import line_of_record

LEFT = "plan.json"
"""What a run leaves beside the plan: what the program has said, and of which files."""

CLAIM = (*WRITTEN["blocks"], *WRITTEN["joined"])
"""The files of a plan."""

SAID = ({"files", "error", "hints"}, {"files", "trips", "audit", "misfits", "misfit", "least", "check", "refused"})
"""What `plan.json` has: where the program refuses the feed, and where it has planned."""

Json = dict[str, Any]


def plan_one(town: Town, stated: Callable[[], str] = str) -> Json:
    """Plans a folder, has the plan judged, and leaves what the program has said. It has `error` where the program refuses the feed.

    `stated` gives the `stated.csv` of a day type, or an empty text.
    """
    town.path(LEFT).unlink(missing_ok=True)
    try:
        _state(town, stated())
        said = _ask_all(town)
    except DeskError as error:
        said = {"error": str(error).replace(f"{town.folder}: ", ""), "hints": [*error.hints, *_hints(town, error)]}
    said["files"] = state(town)
    write_whole(town.path(LEFT), json.dumps(said, ensure_ascii=False, indent=2) + "\n", replace=True)
    return said


def _state(town: Town, text: str) -> None:
    """Writes the `stated.csv` of a day type, or takes it away where nothing is stated. A town of one day has none."""
    if town.above and text != stated_of(town):
        if text:
            write_whole(town.path(STATED), text, replace=True)
        else:
            town.path(STATED).unlink()


def stated_of(town: Town) -> str:
    """The `stated.csv` that a day type has; empty where it has none."""
    return read_text(town.path(STATED)) if town.has(STATED) else ""


def _ask_all(town: Town) -> Json:
    """What the program says of today's blocks, of the least ones, and of the files that it writes of these."""
    audit = ask("audit", town)
    planned = ask("blocks", town)
    tell("joined", town.folder)
    check = ask("check", town)
    refused = [line_of_record("record", record) for record in planned["records"] if not record["ok"]]
    misfits = audit.pop("misfits", [])
    return {"trips": len(town.selected), "audit": {key: value for key, value in audit.items() if key != "refused"},
            "misfits": len(misfits), "misfit": misfits[0] if misfits else None,
            "least": {key: planned[key] for key in ("vehicles", "minutes")},
            "check": {key: value for key, value in check.items() if key != "refused"}, "refused": refused}


def _hints(town: Town, error: DeskError) -> Iterator[str]:
    """How what the program refuses is mended, where that is known."""
    said = getattr(error, "said", None)
    if said is not None:
        yield from refusal_hints(town, said)


def left_of(town: Town) -> Json:
    """What a run has left. Where there is none, or where the files have changed since, it has `error`."""
    path = town.path(LEFT)
    if not path.is_file():
        return {"error": "no run has left a plan", "hints": []}
    try:
        said = json.loads(read_bytes(path))
    except ValueError:
        said = None
    if not isinstance(said, dict) or not any(names <= said.keys() for names in SAID):
        return {"error": f"its {LEFT} is none that `./desk plan` writes: plan it again", "hints": []}
    if said.pop("files") != state(town):
        return {"error": "its files have changed since it was planned: plan it again", "hints": []}
    return said


def state(town: Town) -> str:
    """A word for the contents of the files of a folder, and of its plan. It is the same on each machine that has the same files."""
    found = hashlib.sha256()
    for name in (*FEED_FILES, "edits.csv", STATED, *CLAIM):
        path = town.path(name)
        if path.is_file():
            found.update(f"{name} {_digest(path, path.stat().st_mtime_ns)}\n".encode())
    if town.above:
        found.update(_settings(town))
    return found.hexdigest()


def _settings(town: Town) -> bytes:
    """The settings of a day type as the program reads them; nothing where they are not TOML."""
    try:
        return toml_text(town.settings).encode("utf-8", "surrogateescape")
    except DeskError:
        return b""


@cache
def _digest(path: Path, _: int) -> str:
    """A word for the contents of a file, which is read once for all day types."""
    return hashlib.sha256(read_bytes(path)).hexdigest()
