"""`desk take`: what the planners' records leave becomes records of the script, on which all commands work.

The records that stand are put behind those of `edits.csv`, where the program has accepted them for their day, and
`planner_edits.csv` is empty then. The plan stays the same one.
"""
from __future__ import annotations

import argparse
import sys

from desk.day import Day, plan_day
from desk.edits import Script, writing
from desk.errors import DeskError
from desk.keeping import canonical, journal_records, kept_already
from desk.rooms import SCRIPTS
from desk.town import Town

WORD = "take"
HELP = "append the planners' edits in force to edits.csv, and empty planner_edits.csv"


def add_arguments(parser: argparse.ArgumentParser) -> None:
    """The words of `desk take`."""
    parser.add_argument("town", help="the folder of the feed")


def run(arguments: argparse.Namespace) -> int:
    """Takes the edits that stand, and says how many they are."""
    town = Town(arguments.town)
    if not town.has("planner_edits.csv"):
        raise DeskError(f"planner_edits.csv is not in {town.folder}: there is nothing to take")
    with writing(town.path("edits.csv")) as script:
        sys.stdout.write(take(plan_day(town, with_planners=True), script))
    return 0


def take(day: Day, script: Script) -> str:
    """Puts the planners' edits that stand into the script of their day, whose lock is held. Gives what was done, as a line."""
    own, planned = (day.town.path(name) for name in SCRIPTS)
    refuse_not_kept(day)
    edits = day.planners.standing if day.planners else []
    if planned.is_file():
        script.take(planned, day.script if edits else script.content)
    taken = "1 record" if len(edits) == 1 else f"{len(edits)} records"
    return f"took {taken} into {own}; {planned.name} is empty\n"


def refuse_not_kept(day: Day) -> None:
    """A DeskError where the script has edits that the journal does not have."""
    edits = [(number, record) for number, record in enumerate(day.records, 1) if record.ok and record.fields[0] != "show"]
    count = kept_already([canonical(record.fields) for _, record in edits], journal_records(day.town))
    if count < len(edits):
        left = "1 edit" if len(edits) - count == 1 else f"{len(edits) - count} edits"
        raise DeskError(f"edits.csv has {left} that the journal does not have, from record {edits[count][0]} on: `./desk keep "
                        f"{day.town.folder}` keeps them, or take them out of edits.csv. Nothing was taken")
