"""What is printed below the program's words after a refusal or a fault: what was found, and how it is mended.

The program's texts stay as they are. Each hint is one line, and where nothing is known there is none.
"""
from __future__ import annotations

import re
from collections.abc import Callable, Sequence
from pathlib import Path

from desk.errors import DeskError
from desk.hints.audit import audit_hints
from desk.hints.claims import claim_hints
from desk.hints.forms import COMMANDS
from desk.hints.machine import keeper_hints, read_hints, write_hints
from desk.hints.refusals import refusal_hints
from desk.hints.scripts import script_hints
from desk.keeping import compared
from desk.limits import MOST_TRIPS
from desk.notes.days import no_trips
from desk.notes.note import View
from desk.period import day_folders
from desk.program import DONE, FEED_REFUSED, KEEPER_FAULT, READ_FAULT, RECORDS_REFUSED, USAGE, WRITE_FAULT
from desk.town import Town
from desk.unlisted_terminals import told, unlisted_of_plan

NOTHING = re.compile(r"\b(fixed|vehicles|sum) 0\b")
"""The numbers of a day without trips."""


def hints_of(command: str, words: Sequence[str], status: int, text: str) -> list[str]:
    """The hints of a run of the program: its command, the words behind that, its status and what it put."""
    if status == USAGE:
        return usage_hints(command, words)
    if command not in COMMANDS or len(words) != 1:
        return []
    try:
        return _of_days(command, Town(words[0])) + _hints(command, Town(words[0]), status, text)
    except (DeskError, OSError):
        return []


def _of_days(command: str, town: Town) -> list[str]:
    """That a town has days, whose trips the program has taken as those of one day."""
    first = next(iter(day_folders(town.folder)), None)
    if first is None or town.date is not None or town.selects()[0] is not None:
        return []
    return [f"{town.folder} has days, and all of their trips were taken as those of one day. Name one of them, as `./desk {command} "
            f"{first}`."]


def hints_before(command: str, words: Sequence[str]) -> list[str]:
    """Hints before a run that cannot be found after it: what `kept` writes over."""
    return _before("kept", _written_over, command, words)


def questions_before(command: str, words: Sequence[str]) -> list[str]:
    """What a run would do that nobody may want: what `keep` does twice."""
    return _before("keep", _kept_twice, command, words)


def _before(of: str, find: Callable[[Town], list[str]], command: str, words: Sequence[str]) -> list[str]:
    """What a function finds in the town of a command, where it is this one."""
    try:
        return find(Town(words[0])) if command == of and len(words) == 1 and Path(words[0]).is_dir() else []
    except (DeskError, OSError):
        return []


def _kept_twice(town: Town) -> list[str]:
    """That the journal has edits already which `keep` puts behind it."""
    count = compared(town)[0] if town.has("edits.csv") else 0
    if not count:
        return []
    records = "record 1 of edits.csv" if count == 1 else f"records 1 to {count} of edits.csv"
    return [f"the journal has {records} already, and `keep` does the same a second time."]


def _written_over(town: Town) -> list[str]:
    """What `kept` writes over in a town."""
    hints = []
    if not town.path("journal.db").exists():
        hints.append(f"there was no journal in {town.folder}. `kept` has made an empty one and an empty edits.csv. "
                     "`keep` fills a journal.")
    gone = compared(town)[1] if town.has("edits.csv") else []
    if gone:
        edits = "1 edit" if len(gone) == 1 else f"{len(gone)} edits"
        hints.append(f"edits.csv had {edits} that the journal does not have, from record {gone[0]} on. `kept` has written over them.")
    return hints


def _beside(command: str, town: Town, status: int, text: str) -> list[str]:
    """What a planner should know beside the answer of a run that was done: a day without trips, terminals without a depot."""
    nothing = [note.text for note in no_trips(View(town))] if NOTHING.search(text) else []
    if nothing:
        return nothing
    if command == "audit":
        return audit_hints(town, status, text)
    return told(unlisted_of_plan(town)) if command == "blocks" else []


def _hints(command: str, town: Town, status: int, text: str) -> list[str]:
    """The hints of a run over a town, by its status."""
    if status == FEED_REFUSED:
        return refusal_hints(town, text.removeprefix("feed refused: ").removesuffix("\n"))
    if status == READ_FAULT:
        return read_hints(command, town.folder)
    if status == WRITE_FAULT:
        return write_hints(command, town.folder)
    if status == KEEPER_FAULT:
        return keeper_hints(town.folder)
    refused = script_hints(town, text) if status else []
    if status not in (DONE, RECORDS_REFUSED) and command != "audit":
        return refused + claim_hints(town, text)
    return refused + _beside(command, town, status, text)


def usage_hints(command: str, words: Sequence[str]) -> list[str]:
    """Why the words behind a command are of no form."""
    if command == "sample":
        return [f"sample takes one number from 0 to {MOST_TRIPS}, in digits alone and without a zero in front."]
    if not words:
        return [f"{command} takes the folder of a feed, as `./desk {command} town`."]
    if len(words) > 1 and Path(" ".join(words)).exists():
        return [f"a folder with a space in its name stands in quotes: `./desk {command} \"{' '.join(words)}\"`."]
    return [f"{command} takes one folder, and {len(words)} words stand behind it."] if len(words) > 1 else []
