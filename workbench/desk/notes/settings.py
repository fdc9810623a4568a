"""Notes on the tables of `desk.toml`: keys that are no place and no route, or that are below a table by mistake."""
from __future__ import annotations

from collections.abc import Iterator

from desk.hints.forms import KEYS
from desk.hints.names import Finding, Known, advice, shown
from desk.notes.note import Note, View
from desk.notes.places import no_place


def layovers(view: View) -> Iterator[Note]:
    """Each key of `[layovers]` that is no place of any day."""
    table = view.town.table("layovers")
    if not table or not view.day:
        return
    for name in table:
        if name in view.places.day:
            continue
        if name in KEYS:
            yield _above("layovers", name, f"the layover of a terminal {shown(name)}")
            continue
        finding = view.places.about(name)
        if finding is None and not view.places.is_known(name):
            finding = no_place(name)
        if finding is not None:
            yield _without_effect("layovers", finding)


def classes(view: View) -> Iterator[Note]:
    """Each key of `[classes]` that is no route of the feed."""
    known = Known(sorted(view.trips.routes)) if view.town.table("classes") else Known(())
    for name in view.town.table("classes"):
        if name in known:
            continue
        if name in KEYS:
            yield _above("classes", name, f"the class of a route {shown(name)}")
            continue
        finding = advice(name, known) or Finding(f"{shown(name)} is no route of trips.txt", "Write a `route_id` of trips.txt")
        yield _without_effect("classes", finding)


def _without_effect(table: str, finding: Finding) -> Note:
    """That a line of a table has no effect."""
    return Note("no-such-key", "desk.toml", None, f"in [{table}] {finding.found}; the line has no effect", finding.do)


def _above(table: str, name: str, read_as: str) -> Note:
    """That a key stands below a table, and is read as something else."""
    return Note("key-below-table", "desk.toml", None, f"`{name}` stands below [{table}], so it is {read_as}",
                f"Write the line above [{table}], and above every other line in brackets")
