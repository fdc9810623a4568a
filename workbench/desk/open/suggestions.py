"""Suggestions of the program for a day, each tried before it is offered.

`shifts` and `chains` look at the day without deadheads, and the plan that is seen may have them. So each suggestion is made behind
the script in a room, and taken back. What the program says of the plan between the two tells what it does.
"""
from __future__ import annotations

from collections.abc import Iterable

from desk.day import Day, ask_in
from desk.edits import record_of
from desk.rooms import room_of
from desk.scripts import with_record
from desk.texts import Json, minute_of

SUGGESTED = ("shifts", "chains")
"""The commands that suggest something, each under its name in what is read of its text."""

MOST_TRIED = 64
"""How many suggestions are tried at the most."""


def offers(day: Day, word: str, found: Json) -> Json:
    """What a command suggests and what of it helps the plan, with the vehicles and the empty minutes after it."""
    suggested = found[word]
    made = [_shift(one) if word == "shifts" else _chain(one, day.published) for one in suggested[:MOST_TRIED]]
    _, vehicles, minutes = day.cost
    offered = [one for one in tried(day, made) if (one["vehicles"], one["minutes"]) < (vehicles, minutes)]
    return {"count": len(suggested), "untried": len(suggested[MOST_TRIED:]), "sum": found["sum"], "offered": offered,
            "now": {"vehicles": vehicles, "minutes": minutes}}


def _shift(shift: Json) -> Json:
    """A shift with its edit."""
    return {"words": f"{shift['trip']} by {shift['shift']:+}", "edits": [{"edit": "shift", **shift}], "own": 0}


def _chain(chain: Json, taken: Iterable[str]) -> Json:
    """A chain with its edits: each deadhead is an extra trip, whose minutes are as empty as they were."""
    ways = chain["deadheads"]
    edits = [{"edit": "extra", "trip": _free_name(f"dh {way['from']} {way['leaves']} {number}", taken), "from": way["from"],
              "to": way["to"], "departs": way["leaves"], "arrives": way["arrives"]} for number, way in enumerate(ways, 1)]
    words = "; ".join(f"{way['from']} {way['leaves']} to {way['to']} {way['arrives']}" for way in ways)
    return {"words": words, "edits": edits, "own": sum(minute_of(way["arrives"]) - minute_of(way["leaves"]) for way in ways)}


def _free_name(name: str, taken: Iterable[str]) -> str:
    """A name for an extra trip that no trip has."""
    while name in taken:
        name += "'"
    return name


def tried(day: Day, made: list[Json]) -> list[Json]:
    """The suggestions that can be made, with the vehicles and the empty minutes of the plan after each alone."""
    while made:
        records = b"".join(record_of(edit, None) for one in made for edit in (*one["edits"], *[{"edit": "undo"}] * len(one["edits"])))
        with room_of(day.town, {"edits.csv": with_record(day.script, records)}) as room:
            told = ask_in(room, day.town, "blocks")["records"]
        at = len(told) - sum(2 * len(one["edits"]) for one in made)
        good = []
        for one in made:
            *_, last = after = told[at:at + len(one["edits"])]
            if not all(record["ok"] for record in after):
                break
            good.append(one | {"vehicles": last["vehicles"], "minutes": last["minutes"] + one["own"]})
            at += 2 * len(one["edits"])
        if len(good) == len(made):
            return good
        # Behind a refused edit an undo would take back another one.
        del made[len(good)]
    return []
