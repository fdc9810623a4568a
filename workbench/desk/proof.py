"""What is asked of a plan once it is drawn: what `check` says of it, the deficits, and which undo of a planner would be refused."""
from __future__ import annotations

from dataclasses import replace

from desk.day import Day, Proof, ask_in, plan_day
from desk.errors import DeskError
from desk.records import record_text
from desk.rooms import Scripts, room_of
from desk.scripts import with_record
from desk.texts import Json
from desk.town import Town

MOST_ASKED = 8
"""Of how many planners it is asked whether an undo would be refused. Each costs a run of the program."""


def proved(day: Day) -> Day:
    """A day with its proof. The program judges the files that it has written of the plan."""
    if day.proof:
        return day
    with room_of(day.town, {"edits.csv": day.script, **day.claim}) as room:
        verdict, deficits = (ask_in(room, day.town, command) for command in ("check", "deficits"))
    names = may_be_held(day.planners.standing)[:MOST_ASKED] if day.planners else []
    held = {name: said for name in names if (said := undo_refused(day.town, day.scripts, name))}
    return replace(day, proof=Proof(verdict, deficits, held))


def verdict_of(day: Day) -> Json:
    """What `check` says of the files that the program has written of a plan."""
    with room_of(day.town, {"edits.csv": day.script, **day.claim}) as room:
        return ask_in(room, day.town, "check")


def read_day(town: Town) -> Day:
    """The day of a town as it stands, with its proof."""
    return proved(plan_day(town))


def may_be_held(standing: list[Json]) -> list[str]:
    """The planners of whom the program is asked: a later edit of another one names the trip of the last edit of each."""
    found: list[str] = []
    planners: set[str] = set()
    trips: set[str] = set()
    for edit in reversed(standing):
        if edit["planner"] not in planners and edit["trip"] in trips:
            found.append(edit["planner"])
        planners.add(edit["planner"])
        trips.add(edit["trip"])
    return found


def undo_refused(town: Town, scripts: Scripts, planner: str) -> str | None:
    """What the program says to an undo of a planner where it refuses one; None where it is done, or cannot be asked."""
    undo = record_text([planner, "undo"]).encode("utf-8", "surrogateescape")
    script = with_record(scripts.get("planner_edits.csv", b""), undo)
    try:
        with room_of(town, {**scripts, "planner_edits.csv": script}) as room:
            told = ask_in(room, town, "planners")["records"][-1]
    except DeskError:
        return None
    return None if told["ok"] else told["why"]
