"""The layovers that are drafted: those with which vehicles can make the blocks of today."""
from __future__ import annotations

from contextlib import suppress

from desk.counts import counted, some
from desk.errors import DeskError
from desk.layovers import Fitting, fitting
from desk.limits import MOST_TRIPS
from desk.new.report import Report
from desk.new.settings import LAYOVER
from desk.town import Town


def layovers_of_today(town: Town, report: Report) -> dict[str, int]:
    """The layovers below that of all terminals with which the blocks of today can run; none where `audit` cannot be asked."""
    found = None
    if states_blocks(town) and len(town.day()) <= MOST_TRIPS:
        with suppress(DeskError):
            found = fitting(Town(town.folder, {**town.settings, "layover": LAYOVER}))
    tell_layovers(found, report)
    return dict(sorted(found.layovers.items())) if found else {}


def states_blocks(town: Town) -> bool:
    """Whether a trip of the day has a block of today."""
    return any(trip.block_id for trip in town.selected.values())


def tell_layovers(found: Fitting | None, report: Report) -> None:
    """Tells with which layovers the blocks of today can run, where that is known."""
    usual = f"a vehicle stays {LAYOVER} minutes at each terminal"
    if found is None:
        report.look("desk.toml", f"{usual}; [layovers] has others")
        return
    less = [f"{name} {minutes}" for name, minutes in sorted(found.layovers.items())]
    never = f", but for {counted(len(found.never), 'pair')} of trips that no layover mends" if found.never else ""
    report.look("desk.toml", f"{usual}{f' but {some(less)}' if less else ''}: with more the blocks of today would not run, as `audit` says"
                f"{never}" if less or found.never else f"{usual}; the blocks of today can run so, as `audit` says")
