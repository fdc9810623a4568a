"""Notes on rules of pairs: names of no trip, kept pairs that do not fit, and blocks of today that part linked trips."""
from __future__ import annotations

from collections.abc import Collection, Iterator, Sequence
from pathlib import Path

from desk.answers import ask, tell
from desk.hints.names import Finding, shown
from desk.neighbours import Pair, neighbours, stated_neighbours
from desk.notes.note import Note, View
from desk.pair_rules import FILE, IN_SEAT, TRANSFERS, Rule, linked_trips
from desk.plans import read_blocks
from desk.rooms import room_of, scripts_of
from desk.stated_blocks import lay_blocks
from desk.texts import Json
from desk.times import departure_minute
from desk.town import Town


def names(view: View) -> Iterator[Note]:
    """Each name of `pairs.csv` that is no trip of the feed, nor one that a script adds."""
    for rule in view.rules:
        for name, other, side in ((rule.before, rule.after, "before"), (rule.after, rule.before, "after")):
            if is_trip(view, name):
                continue
            unknown = Finding(f"{shown(name)} is no trip of trips.txt", "Write a `trip_id` of trips.txt, or take the record out")
            finding = view.trips.about(name) or unknown
            effect = f"no trip comes straight {side} {shown(other)}" if rule.keeps and is_trip(view, other) else "the record has no effect"
            yield Note("no-such-trip", FILE, rule.record, f"{finding.found}; {effect}", finding.do)


def is_trip(view: View, name: str) -> bool:
    """Whether a name is that of a trip of the feed, of whatever day, or of an extra one."""
    return view.trips.exists(name) or any(extra.trip == name for extra in view.extras)


def kept(view: View) -> Iterator[Note]:
    """Each kept pair that no vehicle makes, as the program says, with the reason."""
    keeps = [rule for rule in view.rules if rule.keeps and is_trip(view, rule.before) and is_trip(view, rule.after)]
    if not keeps or view.refusal is not None:
        return
    with room_of(view.town, scripts_of(view.town)) as room:
        tell("blocks", view.town.folder, room)
        blocks = [block.trips for block in read_blocks(room / "blocks.csv")]
        running, linked = {trip for trips in blocks for trip in trips}, set(neighbours(blocks))
        alone = [rule for rule in keeps if running.intersection(rule.pair) and rule.pair not in linked]
        misfits = misfits_of(view.town, room, [rule.pair for rule in alone if running.issuperset(rule.pair)])
    for rule in alone:
        before, after = map(shown, rule.pair)
        yield Note("kept-pair", FILE, rule.record, f"{before} and {after} are kept together, and {why_apart(rule, running, misfits)}",
                   "Mend times, layovers or deadheads, or take the record out; until then it may cost a vehicle")


def misfits_of(town: Town, room: Path, pairs: Sequence[Pair]) -> dict[Pair, Json]:
    """What `audit` says of these pairs, in a room of a town where each is a block that the feed states."""
    found: dict[Pair, Json] = {}
    # A trip is in one block, so pairs that share one are asked for one after the other.
    left = list(pairs)
    while left:
        stated: dict[str, str] = {}
        asked = []
        for pair in left:
            if not stated.keys() & set(pair):
                stated |= dict.fromkeys(pair, f"kept{len(asked)}")
                asked.append(pair)
        left = [pair for pair in left if pair not in asked]
        lay_blocks(town, room, stated)
        misfits = ask("audit", town, room).get("misfits", [])
        found |= {pair: misfit for misfit in misfits if (pair := (misfit["first"], misfit["second"])) in asked}
    return found


def why_apart(rule: Rule, running: Collection[str], misfits: dict[Pair, Json]) -> str:
    """Why no vehicle makes the second trip of a kept pair straight after the first."""
    for name, other, side in ((rule.before, rule.after, "before"), (rule.after, rule.before, "after")):
        if name not in running:
            return f"{shown(name)} does not run, so no trip comes straight {side} {shown(other)}"
    misfit = misfits.get(rule.pair)
    if misfit is None:
        return "no vehicle can make the second after the first"
    return "no way leads from one to the other" if misfit["short"] is None else f"a vehicle comes {misfit['short']} minutes too late"


def linked(view: View) -> Iterator[Note]:
    """Each two trips of the day that `transfers.txt` links, and that the blocks of today do not have one straight after the other."""
    pairs = linked_trips(view.town)
    if not pairs:
        return
    blocks = {trip.trip_id: trip.block_id for trip in view.day}
    departs = {trip.trip_id: departure_minute(trip.departure) for trip in view.day if trip.departure is not None}
    stated = stated_neighbours(view.day, departs)
    path = view.town.agency_path(TRANSFERS)
    file = str(path.relative_to(view.town.feed)) if path.is_relative_to(view.town.feed) else TRANSFERS
    for (before, after), record in pairs.items():
        if blocks.get(before) and blocks.get(after) and (before, after) not in stated:
            where = "not straight after it" if blocks[before] == blocks[after] else "in another block"
            yield Note("linked-trips", file, record, f"{shown(after)} is linked to {shown(before)} by transfer_type {IN_SEAT}, and the "
                       f"blocks of trips.txt have it {where}",
                       f"Ask the agency which is right: the record `{before},{after},keep` of {FILE} keeps them together")
