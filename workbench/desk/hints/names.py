"""Names in messages: how they are shown, which differ by spaces or capitals alone, and which is the nearest known one."""
from __future__ import annotations

import difflib
from collections.abc import Iterable
from typing import NamedTuple

from desk.errors import one_line

MOST_SHOWN = 60
"""How many characters of a name or of a line a message shows."""

CUTOFF = 0.7
"""How alike two names must be for one to be called the nearest of the other, from 0 to 1."""

LEAST_FRONT, MOST_BEGUN = 3, 4
"""How many characters the front of a name has at least, and how many names with it are told at the most."""

MOST_COMPARED = 50_000
"""About how many names are compared for the nearest ones, so that a file of foreign names takes no minutes."""


class Finding(NamedTuple):
    """What was found, and what a planner can do. Neither has a point at its end."""

    found: str
    do: str

    @property
    def text(self) -> str:
        """Both as two sentences."""
        return f"{self.found}. {self.do}."


def shown(text: str) -> str:
    """A text in double quotes, on one line and not too long."""
    cut = text if len(text) <= MOST_SHOWN else text[:MOST_SHOWN] + "..."
    return f'"{one_line(cut)}"'


def folded(name: str) -> str:
    """A name without spaces and capitals, so that names which differ by these alone are the same."""
    return "".join(name.split()).casefold()


class Known:
    """Names that are known, among which another one is sought."""

    def __init__(self, names: Iterable[str]) -> None:
        self.names = dict.fromkeys(names)
        self._left = MOST_COMPARED
        self._folded: dict[str, str] = {}
        for name in self.names:
            self._folded.setdefault(folded(name), name)

    def __contains__(self, name: str) -> bool:
        return name in self.names

    def alike(self, name: str) -> str | None:
        """The known name that differs from this one by spaces or capitals alone."""
        found = self._folded.get(folded(name))
        return found if found != name else None

    def begun_by(self, name: str) -> list[str]:
        """The known names of which this one is the first word or words."""
        front = name.casefold()
        found = [known for known in self.names if known.casefold().startswith(front) and not known[len(name):len(name) + 1].isalnum()]
        return found if len(front) >= LEAST_FRONT else []

    def nearest(self, name: str, cutoff: float = CUTOFF) -> str | None:
        """The known name that is nearest to this one; None where none is near, or where too many were compared before."""
        if not name or len(name) > MOST_SHOWN or self._left <= 0:
            return None
        self._left -= len(self._folded)
        near = difflib.get_close_matches(folded(name), self._folded, 1, cutoff)
        return self._folded[near[0]] if near else None


def difference(name: str, meant: str) -> str:
    """By what two names differ that are alike but for spaces and capitals."""
    if "".join(name.split()) == "".join(meant.split()):
        return "by spaces"
    if name.casefold() == meant.casefold():
        return "by capitals"
    return "by spaces and capitals"


def advice(name: str, known: Known, cutoff: float = CUTOFF) -> Finding | None:
    """What is found of an unknown name among the known ones, and what to write; None where none is near."""
    meant = known.alike(name)
    if meant is not None:
        return Finding(f"{shown(name)} differs from {shown(meant)} {difference(name, meant)} alone", f"Write {shown(meant)}")
    begun = known.begun_by(name) if cutoff == CUTOFF else []
    if begun:
        return Finding(f"{shown(name)} is unknown, and is the front of {' and of '.join(map(shown, begun[:MOST_BEGUN]))}",
                       f"Write {' or '.join(map(shown, begun[:MOST_BEGUN]))}, if that is meant")
    near = known.nearest(name, cutoff)
    if near is None:
        return None
    return Finding(f"{shown(name)} is unknown, and the nearest known name is {shown(near)}", f"Write {shown(near)}, if that is meant")
