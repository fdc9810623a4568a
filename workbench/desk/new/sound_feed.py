"""The trips that are left out of a town, and the feed without them, from which its files are copied."""
from __future__ import annotations

from collections.abc import Iterator
from contextlib import contextmanager
from pathlib import Path
from tempfile import TemporaryDirectory

from desk.counts import counted
from desk.new.report import Report
from desk.refused_trips import SortedTrips, write_without
from desk.town import AGENCY_FILES, Town


@contextmanager
def sound_feed(agency: Path, trips: SortedTrips, room: Path) -> Iterator[Path]:
    """The folder of the agency, or where the program would refuse some of it one with the files of the other trips."""
    if trips.is_sound:
        yield agency
        return
    with TemporaryDirectory(dir=room) as folder:
        write_without(agency, Path(folder), trips)
        yield Path(folder)


def tell_left_out(trips: SortedTrips, report: Report) -> None:
    """Tells which trips were left out, and why."""
    report.left = [f"{left.trip or '(no name)'}, service {left.service}: {left.why}" for left in trips.left]
    for name in AGENCY_FILES:
        if trips.blanks[name]:
            report.look(name, f"{counted(trips.blanks[name], 'record')} of commas alone left out")
        if trips.trailing[name]:
            report.look(name, f"{counted(trips.trailing[name], 'record')} with a comma too many at the end, which is left out")
    if trips.strays:
        report.look("stop_times.txt", f"{counted(trips.strays, 'record')} of no trip left out, which the program would refuse")


def judge_left_out(town: Town, trips: SortedTrips, report: Report) -> None:
    """Tells how many of the trips that were left out would run on the day."""
    is_selected = town.selection()
    of_day = sum(is_selected(left.service) for left in trips.left)
    if trips.left:
        tell = report.mend if of_day else report.look
        tell("trips.txt", f"{counted(len(trips.left), 'trip')} left out, as listed above, and {of_day:,} of them would run on that day. "
             "Ask the agency to mend them.")
