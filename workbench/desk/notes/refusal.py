"""The program's own refusal of a town, which is the first note, and behind it all other trips that it would refuse."""
from __future__ import annotations

from collections.abc import Iterator

from desk.answers import FeedRefused, ask
from desk.errors import DeskError
from desk.hints.machine import read_hints
from desk.hints.names import shown
from desk.hints.refusals import LINE, OF_A_TRIP, refusal_hints
from desk.notes.note import Note, View
from desk.refused_trips import sort_trips
from desk.town import Town


def refusal_of(town: Town) -> str | None:
    """The program's refusal of a town, behind `feed refused: `; None where it takes it. Where it cannot be told is a DeskError."""
    try:
        ask("deficits", town)
    except FeedRefused as refused:
        return refused.said
    except DeskError as error:
        raise DeskError(" ".join(read_hints("deficits", town.folder)).removesuffix(".") or str(error)) from error
    return None


def refusal(view: View) -> Iterator[Note]:
    """What the program says, with its hint."""
    if view.refusal is not None:
        yield refusal_note("refused", view.town, view.refusal)


def refusal_note(kind: str, town: Town, message: str) -> Note:
    """The note of a message that begins with its file."""
    found = LINE.fullmatch(message)
    if found is None:
        return Note("unreadable", "", None, message, "Look at the file")
    do = " ".join(refusal_hints(town, message)).removesuffix(".")
    return Note(kind, found[1], int(found[2]) if found[2] else None, found[3],
                do or f"Mend the file; `./desk blocks {town.folder}` says how the program reads it")


def trips(view: View) -> Iterator[Note]:
    """Each trip of the day that the program would refuse, but for the one that it names."""
    if view.refusal is None:
        return
    found = LINE.fullmatch(view.refusal)
    named = OF_A_TRIP.fullmatch(found[3]) if found else None
    sorted_trips, is_selected = sort_trips(view.town.feed), view.town.selection()
    for left in sorted_trips.left:
        is_named = named[1] == left.trip if named else found and (found[1], found[2]) == (left.file, str(left.row))
        # What is wrong on any day, or with a trip of the day, refuses the feed.
        if not is_named and (left.on_any_day or is_selected(left.service)):
            found_here = f"trip {shown(left.trip)} of service {shown(left.service)} is refused: {left.why}"
            yield Note("refused-trip", left.file, left.row, found_here, "The agency mends it, or `./desk new` leaves it out")
    if sorted_trips.strays:
        yield Note("refused-trip", "stop_times.txt", None, f"{sorted_trips.strays} records of no trip are refused",
                   "Take them out, or let `./desk new` do it")
