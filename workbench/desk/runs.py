"""Where the program runs over a town: in its folder, or for a day type in a room with the files that hold for it.

What the program writes in such a room stands in the folder of the day type behind the run.
"""
from __future__ import annotations

from collections.abc import Iterator
from contextlib import contextmanager
from pathlib import Path

from desk.files import read_bytes, write_whole
from desk.hints.forms import JOURNAL, READ, WRITTEN
from desk.rooms import FEED_FILES, SCRIPTS, room_of, scripts_of
from desk.town import Town


@contextmanager
def folder_of_run(command: str, town: Town, room: Path | None = None) -> Iterator[Path]:
    """The folder for a run of a command over a town, or a room that is given. What it writes of a day type is put in its place."""
    if room is not None or town.above is None:
        yield town.folder if room is None else room
        return
    reads = READ.get(command, ())
    scripts = {name: content for name, content in scripts_of(town).items() if name in reads}
    claim = [name for name in reads if name not in (*FEED_FILES, *SCRIPTS) and town.has(name)]
    with room_of(town, scripts, of_today=command == "audit") as made:
        for name in claim:
            (made / name).write_bytes(read_bytes(town.path(name)))
        if command in ("keep", "kept"):
            _link_journal(town.path(JOURNAL), made / JOURNAL)
        yield made
        for name in WRITTEN.get(command, ()):
            if (made / name).is_file():
                write_whole(town.path(name), read_bytes(made / name), replace=True)


def _link_journal(journal: Path, link: Path) -> None:
    """Links the journal, since SQLite has files of its own beside it. One that is not there begins as an empty file, as SQLite has it."""
    if not journal.exists():
        write_whole(journal, b"")
    link.symlink_to(journal.resolve())
