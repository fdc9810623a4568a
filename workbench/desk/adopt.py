"""`./desk adopt TOWN`: the plan becomes the blocks that the feed states, so that the next plan can stay near it.

The program writes the blocks: they come into `block_id` of the town's own `trips.txt`. That file as it was stands beside it under
another name, and the agency's files in `agency/` stay as they are.
"""
from __future__ import annotations

import argparse
import os
import re
import sys
from itertools import zip_longest
from pathlib import Path

from desk.answers import ask, tell
from desk.counts import counted, some
from desk.day import CLAIM
from desk.errors import DeskError, complain
from desk.files import read_bytes, sync_folder, write_whole
from desk.hints.forms import PREFERRED
from desk.locks import locked
from desk.period import has_days
from desk.plans import StatedBlock, read_blocks
from desk.published_feed import WRITTEN
from desk.records import Records, open_records
from desk.rooms import FEED_FILES, SCRIPTS, room_of, scripts_of, state_of
from desk.town import Town
from desk.written_texts import line_of_record

WORD = "adopt"
HELP = "make the plan the blocks that the feed states, in block_id of the town's own trips.txt"

TRIPS, BEFORE = "trips.txt", "trips_before_{}.txt"
"""The file that is written, and the name of each that stood in its place, with its number."""

STATE = (*FEED_FILES, *SCRIPTS, *CLAIM)
"""The files that may not change meanwhile."""


def add_arguments(parser: argparse.ArgumentParser) -> None:
    """The words of `desk adopt`."""
    parser.add_argument("town", type=Path, help="the folder, in which `blocks` has written its files")
    parser.add_argument("--back", action="store_true", help="put trips.txt back as it was before the last adopt")


def run(arguments: argparse.Namespace) -> int:
    """Writes the blocks of the plan into the feed, or takes them back. The status is 1 where a record of the script is refused."""
    town = Town(arguments.town)
    if town.above or has_days(town.folder):
        raise DeskError(f"{town.above or town.folder} has days: on each of them a trip may be in another block, and {TRIPS} has "
                        "one block_id for it. `./desk publish` makes a feed of all of them")
    if not town.has(TRIPS):
        raise DeskError(f"{TRIPS} is not in {town.folder}")
    with locked(town.folder):
        if arguments.back:
            return put_back(town)
        return adopt(town)


def adopt(town: Town) -> int:
    """Writes the blocks of the plan into `trips.txt`, says what it wrote and how that is taken back, and gives the status."""
    state, was = state_of(town, STATE), read_bytes(town.path(TRIPS))
    blocks, refused = standing_plan(town)
    stated, extras = stated_text(town, blocks)
    if state_of(town, STATE) != state:
        raise DeskError("nothing is written: the files of the town changed meanwhile")
    trips = sum(len(block.trips) for block in blocks) - len(extras)
    told = f"{counted(trips, 'trip')} in {counted(len(blocks), 'block')}"
    if stated == was:
        sys.stdout.write(f"{town.path(TRIPS)} states these blocks already: {told}\n")
    else:
        before = town.path(BEFORE.format(max(kept_before(town), default=0) + 1))
        write_whole(before, was)
        write_whole(town.path(TRIPS), stated, replace=True)
        sys.stdout.write(f"{town.path(TRIPS)} states the plan by block_id: {told}\n"
                         f"{before} is {TRIPS} as it was: `./desk adopt {town.folder} --back` puts it back\n")
    if extras:
        sys.stdout.write(f"extra trips are not in {TRIPS}, and so have no block_id: {some(extras)}\n")
    if "stated" not in town.settings.get("prefer", PREFERRED):
        complain('`prefer` of desk.toml has no "stated", so plans do not stay near these blocks')
    for said in refused:
        complain(f"edits.csv: {said}")
    return 1 if refused else 0


def standing_plan(town: Town) -> tuple[list[StatedBlock], list[str]]:
    """The blocks that stand in a town, and the lines of refused records. A DeskError where `check` does not say yes to them."""
    if not town.has("blocks.csv"):
        raise DeskError(f"blocks.csv is not in {town.folder}: `./desk blocks {town.folder}` writes it")
    verdict = ask("check", town)
    if verdict["verdict"] != "yes":
        raise DeskError(f"check says no: {verdict['reason']}: `./desk blocks {town.folder}` plans anew")
    blocks = read_blocks(town.path("blocks.csv"))
    if not blocks:
        raise DeskError("no trip runs, so there is no plan")
    return blocks, [line_of_record("record", record) for record in verdict["refused"]]


def stated_text(town: Town, blocks: list[StatedBlock]) -> tuple[bytes, list[str]]:
    """The `trips.txt` that the program writes with these blocks, read again, and the trips of the plan that are not in it.

    A DeskError where it has other blocks than these, or where anything but blocks is another.
    """
    planned = {trip: block.name for block in blocks for trip in block.trips}
    with room_of(town, scripts_of(town)) as room:
        tell("write", town.folder, room)
        text = read_bytes(room / WRITTEN[TRIPS])
        (room / TRIPS).unlink()
        (room / TRIPS).write_bytes(text)
        written = Town(room)
        if not differ_by_blocks_alone(town.path(TRIPS), room / TRIPS):
            raise DeskError(f"nothing is written: {TRIPS} would differ by more than its blocks")
        trips = written.selected
        if any(trip.block_id != planned.get(name, "") for name, trip in trips.items()):
            raise DeskError("blocks.csv has another plan than the one that the program writes: "
                            f"`./desk blocks {town.folder}` plans anew")
        extras = [name for name in planned if name not in trips]
        said = ask("audit", written)
    if not extras and said["verdict"] != "least":
        raise DeskError("nothing is written: `audit` of the feed with these blocks does not say `least`")
    return text, extras


def put_back(town: Town) -> int:
    """Puts `trips.txt` back as it was before the last adopt. A DeskError where it is of another feed."""
    files = kept_before(town)
    if not files:
        raise DeskError(f"{BEFORE.format(1)} is not in {town.folder}: there is no adopt to take back")
    before = files[max(files)]
    if not differ_by_blocks_alone(before, town.path(TRIPS)):
        raise DeskError(f"{before} is of another feed than {TRIPS}, which was made anew since: take it away")
    os.replace(before, town.path(TRIPS))
    sync_folder(town.folder)
    sys.stdout.write(f"{town.path(TRIPS)} is as it was before the last adopt\n")
    return 0


def kept_before(town: Town) -> dict[int, Path]:
    """The files that stood in the place of `trips.txt`, by their numbers."""
    pattern = re.escape(BEFORE).replace(r"\{\}", "([1-9][0-9]{0,8})")
    return {int(name[1]): path for path in town.folder.iterdir() if (name := re.fullmatch(pattern, path.name))}


def differ_by_blocks_alone(one: Path, other: Path) -> bool:
    """Whether two files have the same records, but for the column `block_id`."""
    with open_records(one) as first, open_records(other) as second:
        return _others(first, first.header) == _others(second, second.header) and all(
            left is not None and right is not None and _others(first, left[1]) == _others(second, right[1])
            for left, right in zip_longest(first, second))


def _others(records: Records, fields: list[str]) -> list[str]:
    """The fields of a record but its `block_id`."""
    at = records.find("block_id")
    return fields if at is None else [*fields[:at], *fields[at + 1:]]
