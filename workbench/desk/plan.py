"""`./desk plan TOWN..`: every day type of the towns planned and judged by the program, as many at once as there are processors.

Each is a run of `./desk plan FOLDER` of its own, behind the runs from whose plans it takes neighbours. `--commands` prints them for
other machines, and `--gather` reports what they left.
"""
from __future__ import annotations

import argparse
import os
import shlex
import subprocess
import sys
import time
from collections.abc import Callable, Mapping, Sequence
from pathlib import Path

from desk.errors import DeskError, complain
from desk.hints.machine import folder_hints
from desk.period import TownPeriod, has_days
from desk.plan_report import PlannedTown, report_json, report_text
from desk.plan_run import LEFT, plan_one
from desk.processors import processors
from desk.program import ROOT
from desk.shared_trips import SharedTrips
from desk.town import Town

WORD = "plan"
HELP = "plan every day type of a town, or of several towns, and say how many vehicles the fleet needs"

WAIT = 0.02
"""How many seconds pass before the runs are looked at again."""


def add_arguments(parser: argparse.ArgumentParser) -> None:
    """The words of the command."""
    parser.epilog = ("Example: ./desk plan town; over several machines: ./desk plan town --commands | parallel, and then "
                     "./desk plan town --gather")
    parser.add_argument("towns", nargs="+", type=Path, metavar="TOWN", help="the folder of a town, or of one of its day types")
    how = parser.add_mutually_exclusive_group()
    how.add_argument("--commands", action="store_true", help="print the single runs, one a line, and run none")
    how.add_argument("--gather", action="store_true", help="report what the single runs have left, and run none")
    parser.add_argument("--json", action="store_true", help="the report as JSON")


def run(arguments: argparse.Namespace) -> int:
    """Plans and reports. The status is 1 where a day type has no plan, its `check` says no, or a record of a script is refused."""
    towns = [_town_of(folder) for folder in arguments.towns]
    order = {town.folder: needs for planned in towns for town, needs in planned.order()}
    folders = list(order)
    if arguments.commands:
        sys.stdout.write("".join(f"{shlex.join([_desk(), 'plan', str(folder)])}\n" for folder in folders))
        return 0
    if len(folders) == 1 and not arguments.gather:
        town = Town(folders[0])
        plan_one(town, _stated_by(town))
    elif not arguments.gather:
        run_all(order)
    for planned in towns:
        planned.read()
    sys.stdout.write(report_json(towns) if arguments.json else report_text(towns))
    return 0 if all(planned.is_well for planned in towns) else 1


def _town_of(folder: Path) -> PlannedTown:
    """A town with the folders that are planned: those of its day types, or itself. A folder of no feed is a DeskError."""
    if has_days(folder):
        period = TownPeriod(folder)
        return PlannedTown(str(folder), [day.town for day in period.planned], period.planned, list(period.troubles()),
                           SharedTrips(period, must_stand=True))
    town = Town(folder)
    if not town.has("trips.txt"):
        raise DeskError(" ".join(folder_hints(folder)) or f"{folder} has no trips.txt")
    return PlannedTown(str(folder), [town], [], [])


def _stated_by(town: Town) -> Callable[[], str]:
    """What finds the `stated.csv` of a folder; an empty text for a town of one day, or where no trip runs on the date."""
    def found() -> str:
        shared = SharedTrips(TownPeriod(town.above)) if town.above else None
        days = [day for day in shared.days if day.town.folder.samefile(town.folder)] if shared else []
        return shared.stated(days[0]) if shared and days else ""
    return found


def _desk() -> str:
    """The workbench as it was called, or by its path."""
    return sys.argv[0] if Path(sys.argv[0]).name == "desk" else str(ROOT / "desk")


def run_all(needs: Mapping[Path, Sequence[Path]]) -> None:
    """Plans each folder by a run of its own, as many at once as there are processors, and behind those that it needs. What a run
    cannot leave is told."""
    waiting = list(needs)
    running: list[tuple[Path, subprocess.Popen[bytes]]] = []
    done: set[Path] = set()
    for folder in needs:
        (folder / LEFT).unlink(missing_ok=True)
    try:
        while waiting or running:
            for folder in [folder for folder in waiting if done.issuperset(needs[folder])][:processors() - len(running)]:
                waiting.remove(folder)
                words = [sys.executable, "-S", str(ROOT / "desk"), "plan", str(folder)]
                process = subprocess.Popen(words, stdin=subprocess.DEVNULL, stdout=subprocess.DEVNULL, stderr=subprocess.PIPE)
                running.append((folder, process))
            _progress(len(done), len(needs))
            time.sleep(WAIT)
            for folder, process in [pair for pair in running if pair[1].poll() is not None]:
                errors = process.communicate()[1].decode("utf-8", "replace").strip()
                if not (folder / LEFT).exists():
                    complain(f"{folder}: {errors.rpartition(os.linesep)[2] or f'the run ended with status {process.returncode}'}")
                done.add(folder)
            running = [pair for pair in running if pair[1].returncode is None]
        _progress(len(done), len(needs))
    finally:
        for _, process in running:
            process.terminate()
            process.wait()


def _progress(done: int, count: int) -> None:
    """Shows on a terminal how many runs have ended."""
    if sys.stderr is not None and sys.stderr.isatty():
        sys.stderr.write(f"\rplanned {done} of {count}" + ("\n" if done == count else ""))
        sys.stderr.flush()
