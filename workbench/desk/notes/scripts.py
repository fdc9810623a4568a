"""Notes on `edits.csv` and the journal: edits that `keep` would do again, and edits that `kept` would write over."""
from __future__ import annotations

from collections.abc import Iterator

from desk.keeping import compared
from desk.notes.note import Note, View


def journal(view: View) -> Iterator[Note]:
    """What a script has in common with the journal, and what the journal lacks of it."""
    if not view.town.has("edits.csv") or not view.town.has("journal.db"):
        return
    count, new = compared(view.town)
    if count:
        records = "its record 1 is" if count == 1 else f"its records 1 to {count} are"
        yield Note("kept-twice", "edits.csv", 1, f"{records} in the journal already, and `keep` would do the same a second time",
                   "Take out what is kept before the next `keep`")
    if new:
        edits = "1 edit is" if len(new) == 1 else f"{len(new)} edits are"
        yield Note("not-kept", "edits.csv", new[0], f"{edits} not in the journal, and `kept` would write over them",
                   "Run `keep` before `kept`, or copy the file")
