"""`./desk part TOWN --by agency|routes`: towns beside a town, each with the trips of some of its routes."""
from __future__ import annotations

import argparse
import shutil
import sys
from collections.abc import Collection
from pathlib import Path

from desk.adopt import kept_before
from desk.counts import counted
from desk.errors import DeskError
from desk.files import read_bytes
from desk.hints.files import OWN
from desk.limits import MOST_TRIPS
from desk.new.room import settle, town_room
from desk.new.settings import with_key
from desk.parts import NOT_PARTED, WAYS, Part
from desk.period import has_days
from desk.plan_run import LEFT as PLAN
from desk.records import copy_records, open_records
from desk.rooms import SCRIPTS
from desk.town import DAYS, Town

WORD = "part"
HELP = "make towns of a town with too many trips: by agency, or by routes that share no terminal"

OF_TRIPS = {"stop_times.txt": ("trip_id",), "frequencies.txt": ("trip_id",), "tolerances.csv": ("trip_id",),
            "pairs.csv": ("before", "after")}
"""The files whose records name trips, beside `trips.txt`, with the columns that do. A record stays where one of its trips is."""

LEFT = (*SCRIPTS, *OWN, PLAN)
"""Files that stay in the town alone: its scripts, and what the program has written."""


def add_arguments(parser: argparse.ArgumentParser) -> None:
    """The words of the command."""
    parser.epilog = "Example: ./desk part town --by agency makes town-NAME for each agency of routes.txt"
    parser.add_argument("town", type=Path, metavar="TOWN", help="the folder of the feed, which stays as it is")
    parser.add_argument("--by", choices=tuple(WAYS), required=True, help="what the trips of a part have in common")


def run(arguments: argparse.Namespace) -> int:
    """Makes the towns. The status is 1 where one of them has more trips than the program plans."""
    town = Town(arguments.town.resolve())
    if town.above:
        raise DeskError(f"{arguments.town} is a day type of {town.above}: part that town")
    parts = WAYS[arguments.by](town)
    if len(parts) < 2:
        raise DeskError(f"{NOT_PARTED[arguments.by]}, so there is nothing to part --by {arguments.by}")
    folders = [town.folder.with_name(f"{town.folder.name}-{part.name}") for part in parts]
    for folder in folders:
        if folder.exists():
            raise DeskError(f"{folder} is there already: take it away, or rename it")
    for number, (part, folder) in enumerate(zip(parts, folders), 1):
        make_part(town, part, folder, f"{town.settings.get('block_prefix', 'B')}{number}-")
        more = f", more than the {MOST_TRIPS:,} that the program plans" if part.trips > MOST_TRIPS else ""
        sys.stdout.write(f"{_shown(arguments.town, folder)}: {counted(part.trips, 'trip')} of the day on "
                         f"{counted(len(part.routes), 'route')}{more}\n")
    left = [name for name in left_alone(town) if town.has(name)] + ([f"{DAYS}/"] if has_days(town.folder) else [])
    if left:
        sys.stdout.write(f"left in {arguments.town} alone: {', '.join(left)}\n")
    for folder in folders:
        if (folder / "agency").is_dir() and not (folder / "deadheads.csv").exists():
            name = _shown(arguments.town, folder)
            sys.stdout.write(f"{name} has no deadheads.csv: `./desk new {name}/agency {name} --more --depot LAT,LON` drafts it\n")
    sys.stdout.write(f"Next: ./desk notes {_shown(arguments.town, folders[0])}\n")
    return 1 if any(part.trips > MOST_TRIPS for part in parts) else 0


def _shown(town: Path, folder: Path) -> Path:
    """The folder of a part, as the town beside it was named."""
    return town.with_name(folder.name) if town.name not in ("", "..") else folder


def make_part(town: Town, part: Part, folder: Path, prefix: str) -> None:
    """Makes the town of a part, whose blocks are named with this prefix."""
    with town_room(folder, False) as room:
        copy_part(town.folder, room, part, left_alone(town))
        if (town.folder / "agency").is_dir():
            (room / "agency").mkdir()
            copy_part(town.folder / "agency", room / "agency", part, LEFT)
        settings = read_bytes(town.path("desk.toml")) if town.has("desk.toml") else b""
        (room / "desk.toml").write_bytes(with_key(settings, "block_prefix", prefix))
        settle(room, folder)


def left_alone(town: Town) -> tuple[str, ...]:
    """The files that stay in a town alone."""
    return *LEFT, *(path.name for path in kept_before(town).values())


def copy_part(source: Path, target: Path, part: Part, left: Collection[str]) -> None:
    """Copies the files of a folder but those that are left, those that name trips with the records of the part alone."""
    names = _names(source / "trips.txt", part)
    for path in sorted(source.iterdir()):
        if not path.is_file() or path.name in left or path.name.startswith("."):
            continue
        if path.name == "trips.txt":
            copy_records(path, target / path.name, ("route_id",), part.routes.__contains__)
        elif path.name in OF_TRIPS:
            copy_records(path, target / path.name, OF_TRIPS[path.name], names.__contains__)
        else:
            shutil.copyfile(path, target / path.name)


def _names(path: Path, part: Part) -> Collection[str]:
    """The trips of the part in a `trips.txt`."""
    with open_records(path) as records:
        route, trip = records.column("route_id"), records.column("trip_id")
        return {fields[trip] for _, fields in records if fields[route] in part.routes}
