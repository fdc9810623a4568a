"""The greatest layovers with which vehicles can make the blocks that a feed states, as `audit` says."""
from __future__ import annotations

from collections.abc import Iterator, Mapping
from contextlib import contextmanager
from dataclasses import dataclass, field
from pathlib import Path
from typing import Any

from desk.answers import ask
from desk.errors import DeskError
from desk.rooms import room_of, scripts_of
from desk.texts import Json
from desk.toml import toml_text
from desk.town import Town


@dataclass
class Fitting:
    """Which layovers are less than those of the town, by terminals, and the pairs of trips that none mends."""

    layovers: dict[str, int] = field(default_factory=dict)
    never: list[Json] = field(default_factory=list)


def fitting(town: Town, misfits: list[Json] | None = None) -> Fitting:
    """The layovers with which the stated blocks can run. `misfits` are those that `audit` says with the layovers as they are.

    A DeskError where `audit` cannot be asked, or where it says of other layovers what was not to be expected.
    """
    misfits = audit(town, town.settings).get("misfits", []) if misfits is None else misfits
    found = Fitting()
    ends = {trip.trip_id: town.terminal(trip.last_stop) for trip in town.day()} if misfits else {}
    for misfit in misfits:
        terminal = ends.get(misfit["first"])
        layover = 0 if terminal is None else town.layover(terminal)
        if terminal is None or misfit["short"] is None or misfit["short"] > layover:
            found.never.append(misfit)
        else:
            found.layovers[terminal] = min(found.layovers.get(terminal, layover), layover - misfit["short"])
    if found.layovers:
        left = audit(town, with_layovers(town.settings, found.layovers)).get("misfits", [])
        never = {_pair(misfit) for misfit in found.never}
        # A rule may forbid a pair that is too late, which is told once it comes in time.
        found.never += [misfit for misfit in left if misfit["forbidden"] and _pair(misfit) not in never]
        if {_pair(misfit) for misfit in left} != {_pair(misfit) for misfit in found.never}:
            raise DeskError("audit: with other layovers other pairs do not fit than was to be expected")
    return found


def audit(town: Town, settings: Mapping[str, Any]) -> Json:
    """What `audit` says of a town with these settings in place of its own."""
    with room_with(town, settings) as room:
        return ask("audit", town, room)


@contextmanager
def room_with(town: Town, settings: Mapping[str, Any]) -> Iterator[Path]:
    """A room with the feed and the scripts of a town, the blocks of today, and these settings."""
    with room_of(town, scripts_of(town), of_today=True) as room:
        (room / "desk.toml").unlink(missing_ok=True)
        (room / "desk.toml").write_text(toml_text(settings), encoding="utf-8")
        yield room


def with_layovers(settings: Mapping[str, Any], layovers: Mapping[str, int]) -> dict[str, Any]:
    """Settings with these layovers of terminals beside those that they have."""
    return {**settings, "layovers": {**settings.get("layovers", {}), **layovers}}


def _pair(misfit: Json) -> tuple[str, str]:
    """The two trips that do not fit."""
    return misfit["first"], misfit["second"]
