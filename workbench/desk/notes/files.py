"""Notes on files that are not read, since their names are only like those of files that are."""
from __future__ import annotations

from collections.abc import Iterator

from desk.hints.files import is_sheet, like_names
from desk.notes.note import Note, View


def names(view: View) -> Iterator[Note]:
    """Each file whose name is like that of one that is read."""
    for file, meant in like_names(view.town.folder).items():
        if view.town.has(meant):
            yield Note("file-name", file, None, f"it is not read, and {meant} is, which stands there too",
                       "Look which of the two is right, and move the other one away")
        else:
            do = f"Save it as CSV, under the name {meant}" if is_sheet(file) else f"Rename it to {meant}"
            yield Note("file-name", file, None, f"it is not read, and there is no {meant}", do)
