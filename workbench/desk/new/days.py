"""`./desk new --days`: a folder for each day type of the calendars, and what the town has for all of them."""
from __future__ import annotations

import shutil
from collections.abc import Sequence
from contextlib import suppress
from dataclasses import dataclass
from pathlib import Path

from desk.calendars import format_date
from desk.counts import counted
from desk.dates import today
from desk.day_names import free_name
from desk.day_types import DayType, Period
from desk.errors import DeskError
from desk.files import write_whole
from desk.layovers import Fitting, fitting
from desk.limits import MOST_TRIPS
from desk.new.layovers import tell_layovers
from desk.new.report import Report
from desk.new.settings import LAYOVER, day_text, settings_text
from desk.period import day_folders, period_of
from desk.records import open_records
from desk.refused_trips import SortedTrips
from desk.stations import Terminal
from desk.town import DAYS, Town


@dataclass(frozen=True)
class NewDays:
    """The day types that are drafted. `own` is the town that is there, whose folders of day types keep their names."""

    found: Period
    own: Path

    @property
    def busiest(self) -> DayType:
        """The day type with the most trips."""
        return self.found.types[0]

    def on_busiest(self, room: Path, settings: dict[str, object] | None = None) -> Town:
        """The town in the room on a date of the busiest day type."""
        return Town(room, {**(settings or {}), "date": format_date(self.busiest.date_from(today()))})

    def folders(self) -> dict[tuple[object, ...], str]:
        """The folders that are there, by the dates of their day types. Of two of one type the first counts."""
        found: dict[tuple[object, ...], str] = {}
        for path in day_folders(self.own):
            date = Town(path).date
            kind = self.found.type_of(date) if date else None
            if kind:
                found.setdefault(kind.dates, path.name)
        return found


def find_days(room: Path, own: Path, report: Report) -> NewDays:
    """The day types of the feed in the room."""
    days = NewDays(period_of(Town(room, {})), own)
    dates = days.found.dates
    report.days_title = f"{counted(len(days.found.types), 'day type')} of {counted(len(dates), 'date')}, {dates[0]} to {dates[-1]}:"
    report.next = "plan"
    if dates[-1] < today():
        report.mend("desk.toml", f"the calendars end on {dates[-1]}, before today. Ask the agency for its newest feed.")
    return days


def tell_left(trips: SortedTrips, report: Report) -> None:
    """Tells that trips were left out, of whatever day."""
    if trips.left:
        report.mend("trips.txt", f"{counted(len(trips.left), 'trip')} left out, as listed above. Ask the agency to mend them.")


def draft_shared(town: Town, days: NewDays, terminals: Sequence[Terminal], report: Report) -> None:
    """Drafts the `desk.toml` that is for all day types, with layovers by which the blocks of today can run on each of them."""
    found = layovers_of_days(town, days)
    tell_layovers(found, report)
    layovers = dict(sorted(found.layovers.items())) if found else {}
    services = list(dict.fromkeys(trip.service_id for trip in town.selected.values()))
    route = next((trip.route_id for trip in town.selected.values() if trip.route_id), "")
    terminal = next((terminal.name for terminal in terminals if terminal.name not in layovers), "")
    text = settings_text(None, services, terminal, route, layovers, has_days=True, blocks=_blocks_of(town))
    write_whole(town.path("desk.toml"), text)
    report.draft("desk.toml", f"for all day types; a layover of {LAYOVER} minutes")


def layovers_of_days(town: Town, days: NewDays) -> Fitting | None:
    """The layovers below that of all terminals with which the blocks of today can run on each day type.

    None where the feed has no blocks, or where `audit` could be asked for no day type.
    """
    if not any(_blocks_of(town)):
        return None
    in_all, is_known = Fitting(), False
    for kind in days.found.types:
        if kind.trips > MOST_TRIPS:
            continue
        settings = {"date": format_date(kind.dates[0]), "layover": LAYOVER, "layovers": in_all.layovers}
        with suppress(DeskError):
            found = fitting(Town(town.folder, settings))
            is_known = True
            in_all.layovers |= found.layovers
            in_all.never += [pair for pair in found.never if pair not in in_all.never]
    return in_all if is_known else None


def _blocks_of(town: Town) -> set[str]:
    """The blocks of today of the trips of all days."""
    with open_records(town.path("trips.txt")) as records:
        block = records.find("block_id")
        return set() if block is None else {fields[block] for _, fields in records}


def draft_folders(room: Path, days: NewDays, replace: bool, report: Report) -> None:
    """Drafts a folder for each day type. Those that are there stay with all that is in them, but for a draft that is made anew."""
    if (days.own / DAYS).is_dir():
        try:
            shutil.copytree(days.own / DAYS, room / DAYS, symlinks=True)
        except (OSError, shutil.Error) as error:
            raise DeskError(f"{days.own / DAYS} cannot be copied: {error}") from error
    there, taken = days.folders(), {path.name for path in day_folders(days.own)}
    for kind in days.found.types:
        name = there.get(kind.dates) or free_name(kind.folder, taken)
        taken.add(name)
        folder = room / DAYS / name
        folder.mkdir(parents=True, exist_ok=True)
        if replace or kind.dates not in there:
            text = day_text(kind.label, len(kind.dates), kind.date_from(today()))
            write_whole(folder / "desk.toml", text, replace=True)
        more = f", more than the {MOST_TRIPS:,} that the program plans" if kind.trips > MOST_TRIPS else ""
        report.days.append(f"{DAYS}/{name}: {kind.label}, {counted(len(kind.dates), 'date')}, {counted(kind.trips, 'trip')}{more}")
    fresh = len(days.found.types) - len(there)
    report.draft(f"{DAYS}/", f"{counted(fresh, 'folder')} with a desk.toml" + (f"; {counted(len(there), 'folder')} kept" if there else ""))
    for name in sorted(taken - set(there.values()) - {kind.folder for kind in days.found.types}):
        if (days.own / DAYS / name).is_dir():
            report.mend(f"{DAYS}/{name}", "no trip runs on its date, or another folder has that day type. Change the date, or take it "
                        "away.")
