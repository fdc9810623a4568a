"""What `./desk plan` says of towns: of each day type what the program has said, and last the fleet, the most over the day types."""
from __future__ import annotations

import json
from collections.abc import Iterator, Sequence
from dataclasses import dataclass, field
from pathlib import Path
from typing import Any

from desk.counts import counted
from desk.errors import one_line
from desk.figures import columns
from desk.hints.names import shown
from desk.period import PlannedDay
from desk.plan_run import left_of
from desk.shared_trips import SharedTrips
from desk.town import DAYS, Town
from desk.written_texts import why_text

Json = dict[str, Any]

NOT_NEAR = {"error": "day types before it have no plan, or another one, since it was planned: plan the town again", "hints": []}
"""What is said of a day type whose plan stays near plans that do not stand."""

HEAD = ["day type", "dates", "trips", "vehicles today", "minutes", "least vehicles", "minutes", "check"]


SHARED = ["other neighbours", "other names"]
"""The columns of what differs from the plans before, where day types share trips."""


@dataclass
class PlannedTown:
    """A town whose `towns` are planned: itself, or the folders of its `days`. `said` has what the program has said of each."""

    name: str
    towns: list[Town]
    days: list[PlannedDay]
    troubles: list[str]
    shared: SharedTrips | None = None
    said: list[Json] = field(default_factory=list)

    def order(self) -> Iterator[tuple[Town, list[Path]]]:
        """What is planned, the one with the most dates first, with the folders that are planned before it."""
        if self.shared is None:
            yield from ((town, []) for town in self.towns)
        else:
            yield from ((day.town, [other.town.folder for other in self.shared.needs(day)]) for day in self.shared.days)

    def read(self) -> None:
        """Takes what the runs have left. A plan that stays near other plans than those that stand has `error` too."""
        self.said = [{"shared": None, **said} if "error" not in said else said for said in map(left_of, self.towns)]
        for at, day in enumerate(self.days):
            if self.shared and "error" not in self.said[at]:
                self.said[at] = {**self.said[at], "shared": self.shared.differ(day)} if self.shared.stands(day) else NOT_NEAR

    @property
    def is_well(self) -> bool:
        """Whether each has a plan to which `check` says yes, no record is refused, and the folders are one for each day type."""
        return not self.troubles and all(_is_planned(said) and not said["refused"] for said in self.said)

    @property
    def places(self) -> list[str]:
        """Where each plan stands."""
        return [f"{DAYS}/{day.name}" for day in self.days] or [self.name]

    @property
    def dates(self) -> list[int]:
        """For how many dates each holds."""
        return [len(day.dates) for day in self.days] or [1]

    @property
    def labels(self) -> list[str]:
        """What each is called."""
        return [day.label for day in self.days] or [self.name]

    def fleet(self, key: str = "least") -> tuple[int, str] | None:
        """The most vehicles over the day types and the first that needs them, as the program says: least, or today. None where it has
        not said it of all."""
        numbers = [(said.get(key) or {}).get("vehicles") for said in self.said]
        if None in numbers or not numbers:
            return None
        most = max(numbers)
        return most, self.labels[numbers.index(most)]


def _is_planned(said: Json) -> bool:
    """Whether a plan stands to which `check` says yes."""
    return "error" not in said and said["check"]["verdict"] == "yes"


def report_text(towns: Sequence[PlannedTown]) -> str:
    """The report."""
    parts = ["".join(f"{one_line(line)}\n" for line in _lines(town)) for town in towns]
    fleets = [town.fleet() for town in towns]
    if len(towns) > 1 and all(fleets):
        parts.append(f"all towns: {counted(sum(fleet[0] for fleet in fleets if fleet), 'vehicle')}\n")
    return "\n".join(parts)


def _lines(town: PlannedTown) -> Iterator[str]:
    """The lines of a town."""
    count = f": {counted(len(town.days), 'day type')}" if town.days else ""
    yield f"{town.name}{count}"
    head, rows = HEAD, [_row(town, number) for number in range(len(town.said))]
    if any(said.get("shared") for said in town.said):
        head, rows = [*HEAD, *SHARED], [row + _shared(said) for row, said in zip(rows, town.said)]
    yield from columns(head, rows).splitlines()
    for place, said in zip(town.places, town.said):
        yield from (f"{place}: {text}" for text in _told(said))
    yield from town.troubles
    fleet, today = town.fleet(), town.fleet("audit")
    if fleet is None:
        without = sum("error" in said for said in town.said)
        yield f"fleet: not known, since {counted(without, 'day type')} of {len(town.said)} {'has' if without == 1 else 'have'} no plan"
    else:
        on = f", on {fleet[1]}" if town.days else ""
        were = f"; today {today[0]}" + (f", on {today[1]}" if town.days else "") if today else ""
        yield f"fleet: {counted(fleet[0], 'vehicle')}{on}{were}"


def _row(town: PlannedTown, number: int) -> list[str]:
    """The row of a day type."""
    said = town.said[number]
    dates = str(town.dates[number])
    if "error" in said:
        return [town.labels[number], dates, *["-"] * 5, "no plan"]
    numbers = [str((said[key] or {}).get(name, "-")) for key in ("audit", "least") for name in ("vehicles", "minutes")]
    return [town.labels[number], dates, str(said["trips"]), *numbers, said["check"]["verdict"]]


def _shared(said: Json) -> list[str]:
    """What differs of the trips that a day type shares with those before it."""
    found = said.get("shared")
    return [f"{found[other]} of {found[all]}" for other, all in (("other_pairs", "pairs"), ("other_names", "trips"))] if found else ["-", "-"]


def _told(said: Json) -> Iterator[str]:
    """What is to be looked at: what is refused and why, and today's blocks that cannot be run."""
    if "error" in said:
        yield said["error"]
        yield from said["hints"]
        return
    if said["check"]["verdict"] == "no":
        yield f"check says no: {said['check']['reason']}"
    yield from said["refused"]
    if said["misfit"]:
        first = said["misfit"]
        yield (f"today's blocks cannot be run: {counted(said['misfits'], 'pair')} of trips do not fit, the first {shown(first['first'])} "
               f"to {shown(first['second'])}, {why_text(first)}")


def report_json(towns: Sequence[PlannedTown]) -> str:
    """The report as JSON."""
    found = [{"town": town.name, "fleet": _fleet_json(town.fleet()), "today": _fleet_json(town.fleet("audit")),
              "troubles": town.troubles, "days": [{"folder": place, "name": label, "dates": dates, **said} for place, label, dates, said
                                                  in zip(town.places, town.labels, town.dates, town.said)]} for town in towns]
    return json.dumps({"towns": found}, ensure_ascii=False, indent=2) + "\n"


def _fleet_json(fleet: tuple[int, str] | None) -> Json | None:
    """The vehicles of a fleet and the day type that needs them."""
    return None if fleet is None else {"vehicles": fleet[0], "on": fleet[1]}
