"""A day as the page reads it: plain tables of texts and minutes, which go to the browser as JSON."""
from __future__ import annotations

import json
from typing import Any

from desk.boards_page import day_text
from desk.day import Day
from desk.figures import block_figures
from desk.lines import LineNames
from desk.notes.days import no_trips
from desk.notes.note import View
from desk.page.trips import Seen, shown_trips
from desk.plans import Block
from desk.scripts import Record, standing
from desk.texts import Json, minute_of
from desk.texts_names import keeps_names
from desk.unlisted_terminals import told, unlisted
from desk.written_texts import edit_text, verdict_text

LISTS = ("trips", "blocks", "script", "wishes")
"""The lists of a view that are long, and mostly as they were after an edit."""

PROVED = "No plan has fewer vehicles, and none with as many has fewer empty minutes: checked by prices."


def as_view(day: Day, seen: Seen | None = None) -> Json:
    """All that the page shows of a day. What is as it was seen before, of a day of the same town, is the same object."""
    lines = LineNames(day.town)
    seen = seen if seen and seen[0].town is day.town else None
    trips = shown_trips(day, lines, seen)
    done, undone = standing(day.records)
    fixed, vehicles, minutes = day.cost
    return {
        "title": day.town.title,
        "date": day_text(day.town),
        "state": day.state,
        "made": f"{day.made:%Y-%m-%d %H:%M:%S}",
        "written": day.written,
        "numbers": {"vehicles": vehicles, "minutes": minutes, "fixed": fixed},
        "colours": lines.colours,
        "trips": trips,
        "blocks": _blocks(day, trips, seen),
        "script": [_record(record) for record in day.records],
        "undo": done[-1].text if done else None,
        "redo": undone[-1].text if undone else None,
        "planners": _planners(day),
        "warnings": _warnings(day),
        "proof": proof_view(day),
    }


def _warnings(day: Day) -> list[str]:
    """What a planner should know beside the numbers: the terminals that `depot.csv` does not list."""
    return told(unlisted(day.town, ([(ride.start, ride.end) for ride in block.rides] for block in day.blocks)))


def change_of(before: Json, after: Json) -> Json:
    """A view as it is sent to a page that has the one before: its lists in parts."""
    return after | {name: parts_of(before[name], after[name]) for name in LISTS}


def parts_of(before: list[Json], after: list[Json]) -> list[Any]:
    """A list in parts: `[first, count]` are elements of the list before, from this place on, and all else is an element."""
    places = {id(element): place for place, element in enumerate(before)}
    parts: list[Any] = []
    following = None
    for at, element in enumerate(after):
        place = places.get(id(element))
        if place is None and at < len(before) and element == before[at]:
            place = at
        if place is None:
            parts.append(element)
        elif place == following:
            parts[-1][1] += 1
        else:
            parts.append([place, 1])
        following = None if place is None else place + 1
    return parts


def proof_view(day: Day) -> Json | None:
    """What `check` and `deficits` say of a day, and by whom the last edit of each planner is held; None until they are asked."""
    if day.proof is None:
        return None
    held = {name: day.planners.holder(said) for name, said in day.proof.held.items()} if day.planners else {}
    return {"verdict": _verdict(day, day.proof.verdict), "places": [_place(place) for place in day.proof.deficits["places"]], "held": held}


def as_text(view: Json) -> str:
    """A view as JSON that may stand inside a page: it has no `<`, and a byte that is no UTF-8 is a question mark."""
    text = json.dumps(view, ensure_ascii=False, separators=(",", ":")).replace("<", "\\u003c")
    return text.encode("utf-8", "replace").decode("utf-8")


def _verdict(day: Day, said: Json) -> Json:
    """What `check` says, as its line and in words. `yes` is None of a day without trips: there is nothing to be proud of."""
    text = verdict_text(said)
    if said["verdict"] == "no":
        return {"yes": False, "text": text, "words": "The plan is not proved."}
    if day.blocks:
        return {"yes": True, "text": text, "words": PROVED}
    why = " ".join(note.text for note in no_trips(View(day.town)))
    return {"yes": None, "text": text, "words": f"No trip runs. {why or 'The script cancels all of them.'}"}


def _stated_names(day: Day) -> set[str]:
    """The names that the feed states for blocks, where blocks keep them."""
    return {published.trip.block_id for published in day.published.values() if published.trip} if keeps_names(day.town) else set()


def _blocks(day: Day, trips: list[Json], seen: Seen | None) -> list[Json]:
    """The blocks. A kept name is one of the feed."""
    names = _stated_names(day)
    known = _known_blocks(trips, seen) if seen else {}
    numbers = {trip["id"]: number for number, trip in enumerate(trips)}
    shown = []
    for block in day.blocks:
        is_kept, was = block.name in names, known.get(id(block))
        shown.append(was if was and was["kept"] == is_kept else _block(block, numbers, is_kept))
    return shown


def _known_blocks(trips: list[Json], seen: Seen) -> dict[int, Json]:
    """The blocks as they were seen, by their identity; none where trips had other numbers."""
    before, view = seen
    is_numbered_so = all(was["id"] == trip["id"] for was, trip in zip(view["trips"], trips))
    return {id(block): shown for block, shown in zip(before.blocks, view["blocks"])} if is_numbered_so else {}


def _block(block: Block, numbers: dict[str, int], is_kept: bool) -> Json:
    """A block with its figures: its rides as the numbers of their trips, each with the empty minutes before it."""
    return {"name": block.name, "kept": is_kept, "class": block.vehicle_class, "home": block.home, "figures": block_figures(block),
            "rides": [[numbers[ride.name], ride.empty] for ride in block.rides]}


def _place(place: Json) -> Json:
    """The deficit function of a place."""
    steps = [[minute_of(step["at"]), step["deficit"]] for step in place["steps"]]
    return {"name": place["place"], "max": place["max"], "at": minute_of(place["at"]), "steps": steps}


def _record(record: Record) -> Json:
    """A record of a script with what the program says of it."""
    return {"text": record.text, "ok": record.ok, "said": record.said}


def _planners(day: Day) -> Json | None:
    """The planners' records, and which of their edits stand."""
    if day.planners is None:
        return None
    edits = [{"planner": edit["planner"], "trip": edit["trip"], "text": edit_text(edit)} for edit in day.planners.standing]
    return {"records": [_record(record) for record in day.planners.records], "standing": edits}
