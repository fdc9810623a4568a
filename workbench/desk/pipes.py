"""What is in a town in the place of a file, and would keep the program or the workbench waiting."""
from __future__ import annotations

from pathlib import Path

from desk.files import refuse_no_file
from desk.hints.files import OTHERS, READ
from desk.locks import LOCK

NAMES = (*READ, *sorted(OTHERS), LOCK)
"""The files of a town that the program or the workbench reads or writes."""

FOLDERS = ("", "agency")
"""Where they stand in a town."""


def refuse_pipes(town: Path) -> None:
    """A DeskError where a named pipe, a device or a socket has the name of a file of a town, or a link to one has it."""
    for folder in FOLDERS:
        for name in NAMES:
            refuse_no_file(town / folder / name)
