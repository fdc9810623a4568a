"""What differs between two plans, as a text that the planner passes on."""
from __future__ import annotations

from collections.abc import Iterator
from typing import Any

from desk.figures import hours
from desk.written_texts import verdict_text

Found = dict[str, Any]


def compare_text(found: Found) -> str:
    """The text: the numbers of both, the blocks, and whom to tell what."""
    parts = [_numbers(found), _same(found), _drivers(found), _depot(found), _passengers(found)]
    return "\n".join("".join(line + "\n" for line in part) for part in parts if part)


def _numbers(found: Found) -> list[str]:
    """What the program says of each, and how many trips and blocks differ."""
    lines = []
    for number, (word, side) in enumerate((("was", found["first"]), ("is", found["second"]))):
        day = f", {found['days'][number]}" if "days" in found else ""
        lines.append(f"{word} {side['plan']}{day}: {verdict_text(side['check'])}")
    trips = found["trips"]
    alone = len(trips["cancelled"]), len(trips["new"])
    more = (f"{alone[0]} on the first day alone, {alone[1]} on the second alone" if "days" in found
            else f"{alone[0]} cancelled, {alone[1]} new")
    return lines + [
        f"blocks: {found['first']['blocks']} were, {found['second']['blocks']} are, {len(found['same'])} the same, "
        f"{len(found['changed'])} changed, {len(found['gone'])} gone, {len(found['new'])} new",
        f"trips: {trips['both']} in both, {len(trips['in_other_blocks'])} of them in other blocks, {trips['other_neighbours']} with other "
        f"neighbours, {trips['other_names']} in blocks of other names, {len(trips['moved'])} at other times, {more}",
        *counts_text(found["first"], found["second"])]


def counts_text(first: Found, second: Found) -> list[str]:
    """The neighbours and the waiting of both plans."""
    kept = [f"{side['kept_neighbours']} of {side['stated_neighbours']}" for side in (first, second)]
    return [f"neighbours that the feed states: {kept[0]} were kept, {kept[1]} are",
            f"changes of line: {first['line_changes']} were, {second['line_changes']} are",
            f"waiting: {hours(first['waiting'])} was, {hours(second['waiting'])} is"]


def _same(found: Found) -> list[str]:
    """The blocks that are the same under another name."""
    renamed = [f" {pair['first']} is now {pair['second']}" for pair in found["same"] if pair["first"] != pair["second"]]
    return ["the same blocks under other names", *renamed] if renamed else []


def _drivers(found: Found) -> list[str]:
    """What the drivers of each block have to know."""
    lines: list[str] = []
    nowhere = "does not run" if "days" in found else "cancelled"
    for block in found["changed"]:
        lines.append(f" {_name(block['first'], block['second'])}")
        lines += _each("no more", block["lost"], "second", "now", nowhere)
        lines += _each("new", block["gained"], "first", "was", "did not run")
        lines += [f"  at another time: {trip}" for trip in block["moved"]]
        if not block["lost"] and not block["gained"] and not block["moved"]:
            lines.append("  the same trips in another order, or with other empty running")
    for block in found["gone"]:
        lines.append(f" {block['block']} is gone")
        lines += _each("no more", block["trips"], "second", "now", nowhere)
    for block in found["new"]:
        lines.append(f" {block['block']} is new")
        lines += _each("new", block["trips"], "first", "was", "did not run")
    return ["tell the drivers", *lines] if lines else []


def _depot(found: Found) -> list[str]:
    """What the depot has to know: vehicles that leave it at other times, are gone, or are new."""
    lines = []
    for block in found["changed"]:
        for word, (old, new) in (("leaves the depot", block["leaves"]), ("ends its last trip", block["ends"])):
            if old != new:
                lines.append(f" {_name(block['first'], block['second'])} {word} at {new}, was {old}")
    lines += [f" {block['block']} does not leave" for block in found["gone"]]
    lines += [f" {block['block']} leaves at {block['leaves']}, and ends its last trip at {block['ends']}" for block in found["new"]]
    return ["tell the depot", *lines] if lines else []


def _passengers(found: Found) -> list[str]:
    """What passengers have to know: trips that do not run, run at another time, or are new."""
    trips = found["trips"]
    if "days" in found:
        lines = [f" {day}: {_trip(trip)}" for day, kind in zip(found["days"], ("cancelled", "new")) for trip in trips[kind]]
        return ["trips of one of the days alone", *lines] if lines else []
    lines = [f" cancelled: {_trip(trip)}" for trip in trips["cancelled"]]
    lines += [f" {trip['minutes']:+} min: {_trip(trip)}, was {trip['departed']}" for trip in trips["moved"]]
    lines += [f" new: {_trip(trip)}" for trip in trips["new"]]
    return ["tell passengers", *lines] if lines else []


def _each(word: str, trips: list[Found], where: str, verb: str, nowhere: str) -> Iterator[str]:
    """A line for each trip that comes or goes, with the block where it is or was."""
    for trip in trips:
        yield f"  {word}: {trip['trip']}, {f'{verb} {trip[where]}' if trip[where] else nowhere}"


def _name(old: str, new: str) -> str:
    """A block by its name in both plans."""
    return old if old == new else f"{old} (now {new})"


def _trip(trip: Found) -> str:
    """A trip as passengers know it."""
    line = f"line {trip['line']} " if trip["line"] else ""
    ends = f" from {trip['from']} to {trip['to']}" if trip["from"] else ""
    return f"{line}{trip['departs']}{ends} ({trip['trip']})"
