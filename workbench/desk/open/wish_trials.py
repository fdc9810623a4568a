"""Wishes tried: what the program says of the day with a wish, before it is taken, and of the day without one."""
from __future__ import annotations

from typing import NamedTuple

from desk.counts import counted
from desk.day import Day, plan_day
from desk.errors import UsageError
from desk.files import read_bytes
from desk.neighbours import neighbours
from desk.notes.pairs import misfits_of, why_apart
from desk.open.wishes import Wish, told_rule, wish_of
from desk.pair_rules import FILE, read_rules, rewritten
from desk.records import record_text
from desk.rooms import room_of
from desk.rules import cost_of, plan_with
from desk.texts import Json
from desk.town import Town


class Trial(NamedTuple):
    """A wish that was tried: the day with it, the file of rules, and why a pair cannot be kept, or nothing where all are."""

    wish: Wish
    day: Day
    content: bytes
    misfit: str


def try_wish(day: Day, asked: Json) -> Trial:
    """What is wished of a day, tried by the program."""
    wish = wish_of(day, asked)
    content = rewritten(_stands(day.town), wish.taken, wish.added)
    after = plan_day(day.town, day.scripts | {FILE: content}, before=day)
    return Trial(wish, after, content, _misfit(after, wish))


def _stands(town: Town) -> bytes:
    """The `pairs.csv` of a town; nothing where it is not there."""
    return read_bytes(town.path(FILE)) if town.has(FILE) else b""


def _misfit(day: Day, wish: Wish) -> str:
    """Why pairs that are kept are not in the plan of a day; nothing where all are."""
    trips = [[ride.name for ride in block.rides] for block in day.blocks]
    linked = set(neighbours(trips))
    apart = [rule for rule in wish.added if rule.keeps and rule.pair not in linked]
    if not apart:
        return ""
    with room_of(day.town, day.scripts) as room:
        misfits = misfits_of(day.town, room, [rule.pair for rule in apart])
    running = {trip for block in trips for trip in block}
    return "; ".join(f"{rule.after} cannot follow on {rule.before}: {why_apart(rule, running, misfits)}" for rule in apart)


def told(before: Day, trial: Trial) -> Json:
    """What a wish does to a day, in words, with its records and those that go."""
    wish = trial.wish
    if trial.misfit:
        return {"title": wish.words, "misfit": f"{trial.misfit}. Nothing was written."}
    which = "with this wish" if wish.added else "without it"
    return {"title": wish.words, "cost": f"{_change(before, trial.day)}, and no plan {which} has fewer.",
            "records": [record_text(rule[1:]).rstrip("\n") for rule in wish.added],
            "taken": [told_rule(rule) for rule in wish.taken] if wish.added else [], "file": _file_words(before.town)}


def _change(before: Day, after: Day) -> str:
    """By how many vehicles and empty minutes two plans differ, in words."""
    parts = []
    for was, now, thing in zip(before.cost[1:], after.cost[1:], ("vehicle", "empty minute")):
        more = now - was
        parts.append(f"no {thing} more" if more == 0 else f"{counted(abs(more), thing)} {'more' if more > 0 else 'fewer'}")
    return ", ".join(parts).capitalize()


def _file_words(town: Town) -> str:
    """Into which file a wish comes. A day type gets a file of its own, with what that of the town has."""
    if town.above is None:
        return FILE
    is_first = town.has(FILE) and town.path(FILE).parent != town.folder
    return f"{FILE} of this day type alone" + (", which begins with the records of the town" if is_first else "")


def cost_without(day: Day, records: object) -> Json:
    """The plan of a day without these records of `pairs.csv`, and what they cost together, in words."""
    if not isinstance(records, list):
        raise UsageError("these are no records")
    plan = plan_with(day.town, [rule for rule in read_rules(day.town) if rule.record not in records])
    _, vehicles, minutes = day.cost
    return plan | {"words": cost_of({"vehicles": vehicles, "minutes": minutes}, plan)}
