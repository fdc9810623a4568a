"""Notes on names that are no place: in `deadheads.csv` and `terminals.csv`."""
from __future__ import annotations

from collections import Counter
from collections.abc import Iterable, Iterator, Sequence

from desk.hints.names import Finding, Known, advice, difference, folded, shown
from desk.notes.deadheads import Way
from desk.notes.note import Note, View, note_of
from desk.records import first_records

SURE = 0.85
"""How alike the name of a place on the way must be to a terminal for a note on a typing error."""


def deadheads(view: View) -> Iterator[Note]:
    """Each name of `deadheads.csv` that is no place of any day. One that lies on the way between two others may be none."""
    ways = view.ways
    if not ways or not view.day:
        return
    counts = Counter(name for way in ways for name in (way.start, way.end))
    first = _first((way.record, name) for way in ways for name in (way.start, way.end))
    between = _between(ways)
    lacking = view.lacking(first)
    renamed = set(first) if lacking and not view.pulls else view.former
    for name, record in first.items():
        if name not in between:
            finding = without_effect(about(view, name, lacking), counts[name])
        elif finding := view.places.about(name, SURE) or (about(view, name, lacking) if name in renamed else None):
            finding = Finding(f"{finding.found}; the program takes it for another place, on the way", finding.do)
        if finding is not None:
            yield note_of("no-such-place", "deadheads.csv", record, finding)


def _between(ways: Iterable[Way]) -> set[str]:
    """The places to which a way leads from one place, and from which one leads on to another."""
    before: dict[str, set[str]] = {}
    behind: dict[str, set[str]] = {}
    for way in ways:
        before.setdefault(way.end, set()).add(way.start)
        behind.setdefault(way.start, set()).add(way.end)
    return {name for name, places in before.items() if len(places | behind.get(name, places)) > 1 and name in behind}


def _first(pairs: Iterable[tuple[int, str]]) -> dict[str, int]:
    """Each name with the first record that has it."""
    found: dict[str, int] = {}
    for record, name in pairs:
        found.setdefault(name, record)
    return found


def about(view: View, name: str, lacking: Sequence[str] = ()) -> Finding | None:
    """What is wrong with a name; None where it is a place of some day. Its file lacks these terminals of the day."""
    finding = view.places.about(name)
    if finding is None and not view.places.is_known(name):
        finding = no_place(name, lacking)
    return finding


def no_place(name: str, lacking: Sequence[str] = ()) -> Finding:
    """That nothing is known of a name. Where its file lacks one terminal of the day, it may be the old name of that one."""
    do = f"Write {shown(lacking[0])}, if that is its name now" if len(lacking) == 1 else \
        "Write a terminal of terminals.csv, or a stop that it does not list"
    return Finding(f"{shown(name)} is no place of the feed", do)


def without_effect(finding: Finding | None, records: int) -> Finding | None:
    """A finding with the number of records that have no effect."""
    if finding is None:
        return None
    effect = "the record has no effect" if records == 1 else f"{records} records have no effect"
    return Finding(f"{finding.found}; {effect}", finding.do)


def terminals(view: View) -> Iterator[Note]:
    """Names of terminals that are nearly the same, and stops of `terminals.csv` that are nearly those of the feed."""
    path = view.town.path("terminals.csv")
    spelt: dict[str, str] = {}
    for name, record in first_records(path, "terminal").items():
        other = spelt.setdefault(folded(name), name)
        if other != name:
            yield Note("two-spellings", "terminals.csv", record,
                       f"{shown(name)} differs from {shown(other)} {difference(name, other)} alone, and is another terminal",
                       "Write one of the two, if they are one place")
    stops = first_records(path, "stop_id")
    if not stops or not view.town.stops:
        return
    ends = [stop for trip in view.day for stop in (trip.first_stop, trip.last_stop)]
    known = Known([*view.town.stops, *ends])
    for name, record in stops.items():
        finding = None if name in known else without_effect(advice(name, known), 1)
        if finding is not None:
            yield note_of("no-such-stop", "terminals.csv", record, finding)
