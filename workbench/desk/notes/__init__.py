"""`./desk notes TOWN`: what the program refuses, and what it accepts in silence and a planner would want to know.

Each note names its file, its record, what was found and what to do. The program's own refusal is the first.
"""
from __future__ import annotations

import argparse
import json
from collections import Counter
from collections.abc import Callable, Iterator, Sequence
from pathlib import Path

from desk.errors import DeskError, one_line
from desk.files import reason
from desk.hints.machine import folder_hints
from desk.hints.toml import toml_hints
from desk.notes import days, depot, files, minutes, pairs, places, refusal, scripts, settings, trips, ways
from desk.notes.note import Note, View
from desk.notes.period import notes_of_period
from desk.period import has_days
from desk.town import Town

WORD = "notes"
HELP = "what the program refuses in a town, and what looks wrong and it accepts in silence"

CHECKS: tuple[Callable[[View], Iterator[Note]], ...] = (
    refusal.refusal, files.names, refusal.trips, days.no_trips, days.services, days.all_days, depot.unlisted, settings.layovers,
    settings.classes, trips.repeated, trips.no_block_id, trips.other_days_blocks, trips.tolerances, places.terminals,
    places.deadheads, depot.names, depot.extras, ways.unreached, ways.slow, ways.one_way, pairs.names, pairs.kept, pairs.linked,
    minutes.misses, scripts.journal)
"""What is looked for, in the order of the notes."""

WITHOUT_SETTINGS = CHECKS[:2]
"""What is looked for where `desk.toml` is not TOML, and then tells nothing of the day."""

MOST_OF_A_KIND = 10
"""How many notes of one kind the text has."""


def add_arguments(parser: argparse.ArgumentParser) -> None:
    """The words of the command."""
    parser.add_argument("town", type=Path, metavar="TOWN", help="the folder of the feed")
    parser.add_argument("--json", action="store_true", help="all notes as JSON")
    parser.add_argument("--minutes", action="store_true", help="list the trips that miss each other by less than a minute")


def run(arguments: argparse.Namespace) -> int:
    """Prints the notes. The status is 1 where there are some."""
    town = Path(arguments.town)
    notes = notes_of_period(town, notes_of) if has_days(town) else notes_of(Town(town))
    notes = notes if arguments.minutes else minutes.in_one(notes, arguments.town)
    print(as_json(notes) if arguments.json else as_text(notes), end="")
    return 1 if notes else 0


def notes_of(town: Town) -> list[Note]:
    """All notes of a town, the program's refusal first. A file that cannot be read is a note too, and what needs it is left out."""
    if not town.folder.is_dir():
        raise DeskError(" ".join(folder_hints(town.folder)) or f"{town.folder} is no folder")
    view, notes, unread = View(town, refusal.refusal_of), [], not_toml(town)
    for check in WITHOUT_SETTINGS if unread else CHECKS:
        try:
            for note in check(view):
                notes.append(note)
        except DeskError as error:
            notes.append(refusal.refusal_note("unreadable", town, str(error)))
        except OSError as error:
            notes.append(refusal.refusal_note("unreadable", town, f"{Path(error.filename or town.folder).name}: {reason(error)}"))
    refused = [note for note in notes if note.kind in ("refused", "refused-trip")]
    return [note for note in dict.fromkeys(notes + unread) if not any(map(note.repeats, refused))]


def not_toml(town: Town) -> list[Note]:
    """The note of a `desk.toml` that is not TOML."""
    try:
        hints = toml_hints(town.path("desk.toml")) if town.has("desk.toml") else []
    except DeskError as error:
        hints = [str(error)]
    return [Note("unreadable", "desk.toml", None, "it cannot be read as TOML", hint.removesuffix(".")) for hint in hints]


def as_json(notes: Sequence[Note]) -> str:
    """All notes as JSON."""
    return json.dumps({"notes": [note._asdict() for note in notes]}, ensure_ascii=False, indent=2) + "\n"


def as_text(notes: Sequence[Note]) -> str:
    """The notes as lines, the first ones of each kind, and their number."""
    lines: list[str] = []
    told: Counter[str] = Counter()
    for note in notes:
        told[note.kind] += 1
        if told[note.kind] <= MOST_OF_A_KIND:
            lines.append(one_line(note.text))
    lines += [f"{count - MOST_OF_A_KIND} more notes are like the last ones of {kind}: --json has all" for kind, count in told.items()
              if count > MOST_OF_A_KIND]
    lines.append(f"notes {len(notes)}")
    return "".join(line + "\n" for line in lines)
