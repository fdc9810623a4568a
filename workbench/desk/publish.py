"""`./desk publish TOWN OUT.zip`: the agency's feed with the plan in it, for other systems, read again before it is written."""
from __future__ import annotations

import argparse
import sys
from pathlib import Path

from desk.answers import tell
from desk.board_rows import make_boards
from desk.boards_page import boards_page
from desk.counts import counted, some
from desk.day import Day
from desk.errors import DeskError, UsageError, complain
from desk.figures import figures_text, make_figures
from desk.files import refuse_if_there, write_whole
from desk.lines import LineNames
from desk.period import has_days
from desk.plans import Plan, read_plan
from desk.proof import read_day
from desk.published_check import judge
from desk.published_feed import Handover, make_feed
from desk.published_period import publish_period
from desk.published_zip import write_judged
from desk.rooms import room_of, scripts_of
from desk.town import Town

WORD = "publish"
HELP = "the agency's feed with the plan in it, as a zip for other systems"

BOARDS, FIGURES = "-boards.html", "-figures.txt"
"""The ends of the names of the files beside the zip."""


def add_arguments(parser: argparse.ArgumentParser) -> None:
    """The words of the command."""
    parser.epilog = "Example: ./desk publish town town.zip --boards --figures"
    parser.add_argument("town", type=Path, metavar="TOWN", help="the folder of the feed")
    parser.add_argument("zip", type=Path, metavar="OUT.zip", help="where the feed is written")
    parser.add_argument("--boards", action="store_true", help=f"the running boards too, in OUT{BOARDS}, or with days in OUT-DAY{BOARDS}")
    parser.add_argument("--figures", action="store_true", help=f"the figures too, in OUT{FIGURES}, or with days in OUT-DAY{FIGURES}")
    parser.add_argument("--replace", action="store_true", help="write over files that are there")


def run(arguments: argparse.Namespace) -> int:
    """Writes the zip. The status is 1 where a record of the script is refused, or an extra trip is left out."""
    out: Path = arguments.zip
    if out.suffix.lower() != ".zip":
        raise UsageError(f"{out} is no name of a zip: write OUT.zip")
    beside = [out.with_name(out.stem + end) for end, asked in ((BOARDS, arguments.boards), (FIGURES, arguments.figures)) if asked]
    for path in (out, *beside):
        refuse_if_there(path, arguments.replace)
    return _publish_days(out, arguments) if has_days(arguments.town) else _publish_day(out, beside, arguments)


def _publish_days(out: Path, arguments: argparse.Namespace) -> int:
    """Writes the zip of a town with days, and beside it what is asked for of each day type."""
    plans, status = publish_period(arguments.town, out, arguments.replace)
    for plan in plans:
        if arguments.boards or arguments.figures:
            with room_of(plan.day.town, scripts_of(plan.day.town)) as room:
                _write_beside(plan.day, _plan(plan.day.town, room), out.with_name(f"{out.stem}-{plan.name}{out.suffix}"), arguments)
    return status


def _publish_day(out: Path, beside: list[Path], arguments: argparse.Namespace) -> int:
    """Writes the zip of a town of one day."""
    day = read_day(Town(arguments.town))
    verdict = day.proof.verdict if day.proof else {}
    if verdict.get("verdict") != "yes" or not day.blocks:
        raise DeskError(f"nothing is written: {verdict.get('reason', 'no proof') if day.blocks else 'no trip runs'}")
    with room_of(day.town, scripts_of(day.town)) as room:
        made = write_judged(out, arguments.replace, lambda feed: make_feed(day, room, feed), lambda packed, made: judge(day, packed, made))
        if beside:
            _write_beside(day, _plan(day.town, room), out, arguments)
    return _tell(day, out, beside, made)


def _plan(town: Town, room: Path) -> Plan:
    """The plan that the program writes in a room of a town."""
    for command in ("blocks", "joined"):
        tell(command, town.folder, room)
    return read_plan(Town(room))


def _write_beside(day: Day, plan: Plan, out: Path, arguments: argparse.Namespace) -> None:
    """Writes the boards and the figures that are asked for."""
    town, lines = day.town, LineNames(day.town)
    if arguments.boards:
        write_whole(out.with_name(out.stem + BOARDS), boards_page(town, plan, make_boards(town, plan), lines), replace=arguments.replace)
    if arguments.figures:
        write_whole(out.with_name(out.stem + FIGURES), figures_text(make_figures(plan, lines)), replace=arguments.replace)


def _tell(day: Day, out: Path, beside: list[Path], made: Handover) -> int:
    """Says what was written and what was left out, and gives the status."""
    trips = sum(len(block.rides) for block in day.blocks) - len(made.unlisted)
    planned = f"{counted(trips, 'trip')} of the day in {counted(len(day.blocks), 'block')}"
    sys.stdout.write(f"{out}: {planned}; read again, `audit` says least\n")
    for path in beside:
        sys.stdout.write(f"{path}\n")
    if made.extras:
        sys.stdout.write(f"extra trips in it, of service {made.service}: {some(list(made.extras))}\n")
    if made.cancelled:
        sys.stdout.write(f"cancelled trips are not in it, on no day of their services: {some(made.cancelled)}\n")
    for name, count in made.dropped.items():
        sys.stdout.write(f"{name}: {counted(count, 'record')} of trips that are not in it left out\n")
    refused = [record.said for record in day.records if not record.ok]
    for said in refused:
        complain(f"edits.csv: {said}")
    for name, why in made.unlisted.items():
        complain(f"extra trip {name} is left out: {why}")
    return 1 if refused or made.unlisted else 0
