"""What the page writes of a plan into the town: its blocks with their prices, its boards, and the feed with its blocks."""
from __future__ import annotations

from pathlib import Path

from desk.answers import tell
from desk.day import CLAIM, Day
from desk.errors import DeskError
from desk.files import read_bytes, write_whole
from desk.plans import read_plan
from desk.rooms import room_of
from desk.town import Town

EXPORTS = {"blocks": ("blocks.csv and prices.csv", "blocks", CLAIM), "boards": ("boards.csv", "joined", ("boards.csv",)),
           "feed": ("the written feed", "write", ("trips_blocks.txt", "stop_times_blocks.txt"))}
"""What the page writes: its words, the command that writes it, and its files."""


def export(folder: Path, what: str, day: Day | None) -> str:
    """Writes files of the plan of a town, or of a day with edits that are not in its script, and gives what is said."""
    words, command, names = EXPORTS[what]
    if day is None:
        said = _write(folder, folder, words, command)
    else:
        with room_of(day.town, {"edits.csv": day.script, **day.claim}) as room:
            said = _write(folder, room, words, command)
            for name in names:
                write_whole(folder / name, read_bytes(room / name), replace=True)
    return f"{words} in {folder.resolve()}: {said}"


def _write(town: Path, folder: Path, words: str, command: str) -> str:
    """Has the program write files into a town, or into a room with its feed, and gives what it says."""
    try:
        said = tell(command, town, None if folder == town else folder).rstrip("\n").rpartition("\n")[2]
    except DeskError as error:
        raise DeskError(f"{words} could not be written: {error}") from error
    if command == "joined":
        read_plan(Town(folder))
    return said
