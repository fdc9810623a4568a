"""The report at the end of `./desk new`: what was drafted from what, what to look at first, and the next command."""
from __future__ import annotations

import textwrap
from dataclasses import dataclass, field

from desk.errors import one_line

WIDTH = 120
"""How many characters a line of the report has at most, but for long words."""
MOST_LEFT = 200
"""How many trips that are left out the report has, each on a line."""


@dataclass
class Report:
    """The lines of the report, collected on the way. Each item names its file first.

    `left` has the trips that are left out, and `first` what is said before all else. `next` is the command that comes next.
    """

    town: str
    title: str = ""
    first: list[str] = field(default_factory=list)
    days: list[str] = field(default_factory=list)
    days_title: str = "Trips by day:"
    next: str = "notes"
    left: list[str] = field(default_factory=list)
    drafted: list[str] = field(default_factory=list)
    problems: list[str] = field(default_factory=list)
    looks: list[str] = field(default_factory=list)

    def draft(self, files: str, text: str) -> None:
        """Adds files that were made, and from what."""
        self.drafted.append(f"{files}: {text}")

    def mend(self, file: str, text: str) -> None:
        """Adds what is to be mended before the day is planned."""
        self.problems.append(f"{file}: {text}")

    def look(self, file: str, text: str) -> None:
        """Adds what to look at first."""
        self.looks.append(f"{file}: {text}")

    def text(self) -> str:
        """The report as it is printed."""
        lines = [one_line(self.title), ""]
        if self.first:
            lines += [*(line for text in self.first for line in _folded(text, "")), ""]
        if self.days:
            lines += [self.days_title, *(line for day in self.days for line in _folded(day, "  ")), ""]
        if self.left:
            lines += ["Left out, since the program would refuse them; agency/ has them:"]
            lines += [line for trip in self.left[:MOST_LEFT] for line in _folded(trip, "  ")]
            more = len(self.left) - MOST_LEFT
            lines += [f"  and {more:,} more: `./desk notes {one_line(self.town)}/agency --json` has all", ""] if more > 0 else [""]
        lines.append("Drafted:")
        for item in self.drafted:
            lines += _folded(item, "  ")
        for title, items in (("To mend:", self.problems), ("Look at first:", self.looks)):
            lines += ["", title] if items else []
            for number, item in enumerate(items, 1):
                lines += _folded(item, f"  {number}. ")
        lines += ["", f"Next: ./desk {self.next} {one_line(self.town)}"]
        return "".join(line + "\n" for line in lines)


def _folded(text: str, head: str) -> list[str]:
    """A text on lines of WIDTH, the first with this head, the others below it."""
    return textwrap.wrap(one_line(text), WIDTH, initial_indent=head, subsequent_indent=" " * (len(head) + 2),
                         break_long_words=False, break_on_hyphens=False)
