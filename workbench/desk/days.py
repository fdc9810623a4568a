"""`./desk days TOWN`: the day types of a town's calendars, with their dates, their trips and the folders that plan them."""
from __future__ import annotations

import argparse
import json
import sys
import textwrap
from pathlib import Path

from desk.calendars import format_date
from desk.counts import counted
from desk.day_types import DayType
from desk.errors import one_line
from desk.new.report import WIDTH
from desk.period import TownPeriod, spans_text
from desk.town import DAYS

WORD = "days"
HELP = "the day types of the calendars: their dates, their trips, and the folders that plan them"


def add_arguments(parser: argparse.ArgumentParser) -> None:
    """The words of the command."""
    parser.epilog = "Example: ./desk days town"
    parser.add_argument("town", type=Path, metavar="TOWN", help="the folder of the feed")
    parser.add_argument("--json", action="store_true", help="as JSON, with each date")


def run(arguments: argparse.Namespace) -> int:
    """Prints the day types. The status is 1 where the folders are not one for each of them."""
    period = TownPeriod(arguments.town)
    sys.stdout.write(as_json(period) if arguments.json else as_text(period, arguments.town))
    return 1 if period.days and any(period.troubles()) else 0


def as_text(period: TownPeriod, name: Path) -> str:
    """The day types as lines, the busiest first."""
    dates, kinds = period.found.dates, period.found.types
    lines = [f"{one_line(str(name))}: {counted(len(kinds), 'day type')} of {counted(len(dates), 'date')}, {dates[0]} to {dates[-1]}"]
    folders = _folders(period)
    for kind in kinds:
        folder = folders.get(kind.dates)
        where = f", in {folder}" if folder else ""
        lines += ["", f"{kind.label}: {counted(len(kind.dates), 'date')}, {counted(kind.trips, 'trip')}{where}"]
        lines += textwrap.wrap(spans_text(kind.dates, dates), WIDTH, initial_indent="  ", subsequent_indent="  ")
    alone = [kind.label for kind in kinds if len(kind.dates) == 1]
    lines += ["", f"dates that stand alone: {', '.join(alone)}"] if alone else []
    without = period.found.without
    if without:
        lines += ["", *textwrap.wrap(f"no trips on {counted(len(without), 'date')}: {spans_text(without, dates)}", WIDTH)]
    if not period.days:
        lines += ["", f"It is planned as one day. `./desk new FEED {one_line(str(name))} --more --days` makes a folder for each day type."]
    else:
        troubles = [one_line(text) for text in period.troubles()]
        lines += ["", "To mend:", *(f"  {text}" for text in troubles)] if troubles else []
    return "".join(line + "\n" for line in lines)


def _folders(period: TownPeriod) -> dict[tuple[object, ...], str]:
    """The folder of each day type, by its dates."""
    return {day.dates: f"{DAYS}/{day.name}" for day in reversed(period.days) if day.kind}


def as_json(period: TownPeriod) -> str:
    """The day types as JSON."""
    folders = _folders(period)
    found = {"days": [_as_json(kind, folders.get(kind.dates)) for kind in period.found.types],
             "without": [format_date(date) for date in period.found.without],
             "troubles": list(period.troubles()) if period.days else []}
    return json.dumps(found, ensure_ascii=False, indent=2) + "\n"


def _as_json(kind: DayType, folder: str | None) -> dict[str, object]:
    """A day type."""
    return {"name": kind.label, "folder": folder, "trips": kind.trips, "services": sorted(kind.services),
            "dates": [format_date(date) for date in kind.dates]}
