"""Two periods side by side: the vehicles by day type, and how much of each plan has changed."""
from __future__ import annotations

from collections.abc import Callable
from pathlib import Path

from desk.compare.side import Found
from desk.figures import columns, hours
from desk.period import PlannedDay, TownPeriod
from desk.town import DAYS

HEAD = ["day type", "dates were", "are", "trips were", "are", "in both", "in other blocks", "vehicles were", "are", "check"]
COUNTED = ["day type", "neighbours kept were", "are", "changes of line were", "are", "waiting was", "is"]


def compare_periods(first: Path, second: Path, compared: Callable[[Path, Path], Found]) -> Found:
    """What differs between two towns with days, day type by day type: those of one folder, else of one name."""
    days = [{day.name: day for day in TownPeriod(folder).planned} for folder in (first, second)]
    labels = {day.label: day for day in days[1].values() if day.name not in days[0]}
    pairs = []
    for name, day in days[0].items():
        other = days[1].get(name) or labels.pop(day.label, None)
        if other:
            pairs.append((day, other))
    met = {day.name for _, day in pairs}
    return {"first": str(first), "second": str(second),
            "pairs": [_told(day, other) | compared(day.town.folder, other.town.folder) for day, other in pairs],
            "gone": [day.label for day in days[0].values() if all(day is not one for one, _ in pairs)],
            "new": [day.label for day in days[1].values() if day.name not in met]}


def _told(day: PlannedDay, other: PlannedDay) -> Found:
    """What a pair of day types is."""
    return {"name": other.label, "folders": [day.name, other.name], "dates": [len(day.dates), len(other.dates)]}


def periods_text(found: Found) -> str:
    """The text: two rows for each day type, and where more is told."""
    lines = [f"was {found['first']}, is {found['second']}", *columns(HEAD, [_row(pair) for pair in found["pairs"]]).splitlines(),
             *columns(COUNTED, [_counts(pair) for pair in found["pairs"]]).splitlines()]
    lines += [f"{label}: no such day type any more" for label in found["gone"]] + [f"{label}: a new day type" for label in found["new"]]
    differ = [pair for pair in found["pairs"] if pair["changed"] or pair["gone"] or pair["new"]]
    lines += [f"`./desk compare {found['first']}/{DAYS}/{pair['folders'][0]} {found['second']}/{DAYS}/{pair['folders'][1]}` tells of "
              f"{pair['name']}" for pair in differ]
    return "".join(line + "\n" for line in lines)


def _row(pair: Found) -> list[str]:
    """The row of a pair of day types."""
    sides = pair["first"], pair["second"]
    vehicles = [str(side["check"].get("vehicles", "-")) for side in sides]
    verdict = "yes" if all(side["check"]["verdict"] == "yes" for side in sides) else "no"
    return [pair["name"], *map(str, pair["dates"]), *(str(side["trips"]) for side in sides), str(pair["trips"]["both"]),
            str(len(pair["trips"]["in_other_blocks"])), *vehicles, verdict]


def _counts(pair: Found) -> list[str]:
    """The neighbours and the waiting of a pair of day types."""
    sides = pair["first"], pair["second"]
    return [pair["name"], *(f"{side['kept_neighbours']} of {side['stated_neighbours']}" for side in sides),
            *(str(side["line_changes"]) for side in sides), *(hours(side["waiting"]) for side in sides)]
