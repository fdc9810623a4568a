"""Notes on `depot.csv`: terminals of the day that it forgets, and names that are no place, as where a terminal was renamed."""
from __future__ import annotations

from collections.abc import Iterator

from desk.hints.names import Finding, shown
from desk.notes.note import Note, View, note_of
from desk.notes.places import about, no_place, without_effect
from desk.unlisted_terminals import unlisted_of_plan


def unlisted(view: View) -> Iterator[Note]:
    """Each terminal of the day without a record, with how many vehicles of the plan begin and end there."""
    if not view.day:
        return
    for terminal in unlisted_of_plan(view.town):
        yield Note("no-depot-record", "depot.csv", None, terminal.text.removeprefix("depot.csv has "),
                   f"Write a record of {shown(terminal.terminal)}, if the depot does not lie there")


def names(view: View) -> Iterator[Note]:
    """Each name that is no place of any day. One at which an extra trip runs is a place, where no terminal lacks a record."""
    if not view.pulls or not view.day:
        return
    extras = {extra.place for extra in view.extras}
    for name, record in view.pulls.items():
        if name in extras and name not in view.former:
            continue
        finding = about(view, name, view.lacking(view.pulls))
        if finding is not None:
            yield note_of("no-such-place", "depot.csv", record, finding if name in extras else without_effect(finding, 1))


def extras(view: View) -> Iterator[Note]:
    """Each extra trip from or to a name that was that of a terminal."""
    if not view.extras or not view.day:
        return
    for extra in view.extras:
        if extra.place in view.former:
            found = no_place(extra.place).found
            finding = Finding(f"the extra trip {shown(extra.trip)} runs at {shown(extra.place)}, and {found}",
                              "Write the terminal as terminals.csv names it now")
            yield note_of("no-such-place", extra.file, extra.record, finding)
