"""Why `audit` says that blocks do not fit, or are above the least: layovers, and trips without `block_id`."""
from __future__ import annotations

from desk.answers import read
from desk.hints.names import shown
from desk.layovers import Fitting, fitting
from desk.missing_block_ids import unblocked
from desk.texts import Json
from desk.town import Town

MOST_TOLD = 12
"""How many terminals are told at the most."""


def audit_hints(town: Town, status: int, text: str) -> list[str]:
    """What is known of the status and the text of `audit`."""
    said = read("audit", status, text.encode("utf-8", "surrogateescape"), town.folder, town)
    hints = layover_hints(fitting(town, said["misfits"])) if said["verdict"] == "no" else []
    return hints + (_unblocked_hints(town) if said["verdict"] != "least" else [])


def layover_hints(found: Fitting) -> list[str]:
    """With which layovers the blocks can run, and which pairs none mends."""
    hints = []
    if found.layovers:
        least = sorted(found.layovers.items())
        named = ", ".join(f"{shown(name)} = {minutes}" for name, minutes in least[:MOST_TOLD])
        more = f", and {len(least) - MOST_TOLD} more, the least of all {min(found.layovers.values())}" if len(least) > MOST_TOLD else ""
        others = "all other pairs of today's blocks fit" if found.never else "today's blocks can run"
        hints.append(f"with these layovers {others}, as `audit` says: {named}{more}. Write them below [layovers] of desk.toml.")
    if found.never:
        first = found.never[0]
        pairs = "1 pair does" if len(found.never) == 1 else f"{len(found.never)} pairs do"
        hints.append(f"{pairs} not fit with any layover: {_told(first)}. Are times, deadheads and terminals right?")
    return hints


def _told(misfit: Json) -> str:
    """A pair that does not fit, as the first of some."""
    late = "no way leads there" if misfit["short"] is None else f"{misfit['short']} minutes too late"
    why = "which pairs.csv forbids" if misfit["forbidden"] else late
    return f"the first is {shown(misfit['first'])} to {shown(misfit['second'])}, {why}"


def _unblocked_hints(town: Town) -> list[str]:
    """How many of the stated blocks are single trips without `block_id`."""
    found = unblocked(town)
    count = found.repeated + found.others
    if not count:
        return []
    trips = "1 stated block is a trip" if count == 1 else f"{count} stated blocks are single trips"
    return [f"{trips} without `block_id`: {found.text}."]
