"""The draft of `desk.toml`, in which a comment explains each key, and another value in one that a planner has."""
from __future__ import annotations

import datetime
import re
from collections.abc import Collection, Mapping, Sequence

from desk.toml import quoted

LAYOVER = 5
"""The layover that is drafted, in minutes."""
NAMES_SHOWN = 12
"""How many services stand in the line of an example."""

_DAY = """\
# The day that is planned, {name}. The agency's calendars say which services run on it.
date = "{date}"
"""

_NO_DAY = """\
# The day that is planned. This feed has no calendar, so all of its trips are planned as if they ran on one day.
# date = "20260907"
"""

_DAYS = """\
# Each folder of days/ names its date in a desk.toml of its own. This file is for all of them. A line of theirs goes before one of these.
"""

_REST = """\

# Of the services that run on that day these alone are planned. Without this line all of them are.
# services = [{services}]

# The minutes that a vehicle stays at the end of each trip before it can go on, 0 to 240.
layover = {layover}

# The minutes by which an edit may shift a trip earlier and later, 0 to 60. tolerances.csv has those of single trips.
early = 0
late = 0

# Blocks are named by this and a number: B1, B2 and so on.
block_prefix = "B"

# Blocks keep the names that the agency has for them in block_id, "stated", and only others have numbers. "numbered" gives all of
# them numbers.{unnamed}
{unmarked}block_names = "stated"

# Many plans have the fewest vehicles and empty minutes. Of these the one is taken that keeps the most neighbours of the blocks of
# today, "stated". Of these it is the one that changes line least inside blocks, "line", and then that with the least waiting,
# "waiting". The first matters most. What is not there does not matter.{without}
{mark}prefer = ["stated", "line", "waiting"]

# Lines without a table stand above. The tables begin here: a line below [layovers] is the layover of a terminal.

# Layovers of single terminals, by the names of terminals.csv, in quotes where a name is more than one word.
[layovers]
# {terminal} = 8
{layovers}
# Vehicles of classes that no block mixes: the class that a route needs, by route_id. Take the marks of both lines away.
# [classes]
# {route} = "big"
"""

_DAY_TYPE = """\
# {label}: {dates}. The plan of this one, {name}, is that of all.
date = "{date}"

# What differs on these dates from desk.toml of the town stands here too, as another layover.
"""

_UNSTATED = """ Without this line it is as it says here.
# This feed states no blocks of today. `./desk adopt` makes those of a plan the stated ones."""

_UNNAMED = """ So it is without this line."""

_FITTING = """\
# The greatest ones, up to the layover above, with which vehicles can make the blocks of today. `audit` says so.
"""


def settings_text(date: datetime.date | None, services: Sequence[str], terminal: str, route: str,
                  layovers: Mapping[str, int] | None = None, has_days: bool = False, blocks: Collection[str] = ()) -> str:
    """The text of `desk.toml` for a day, with services, a terminal and a route of the feed as examples, and with these layovers.

    Where the town has days it is for all of them, and has no date. `blocks` are those that the feed states. Where it states
    none, `prefer` is an example too. So is `block_names`, but not for day types, since the blocks of one are stated for another.
    Where one that the feed states is not UTF-8 it is an example in any case.
    """
    no_date = _DAYS if has_days else _NO_DAY
    head = no_date if date is None else _DAY.format(name=f"a {date:%A}", date=f"{date:%Y%m%d}")
    shown = ", ".join(_quoted(name) for name in services[:NAMES_SHOWN]) or '"weekday", "school"'
    lines = "".join(f"{_quoted(name)} = {minutes}\n" for name, minutes in (layovers or {}).items())
    without, mark = ("", "") if any(blocks) else (_UNSTATED, "# ")
    unnamed, unmarked = ("", "") if (has_days or any(blocks)) and all(map(_is_text, blocks)) else (_UNNAMED, "# ")
    return head + _REST.format(without=without, mark=mark, unnamed=unnamed, unmarked=unmarked, services=shown, layover=LAYOVER,
                               terminal=_quoted(terminal or "Station"), layovers=_FITTING + lines if lines else "",
                               route=_quoted(route or "line_1"))


def day_text(label: str, dates: int, date: datetime.date) -> str:
    """The text of the `desk.toml` of a day type, of so many dates, which is planned for this one."""
    return _DAY_TYPE.format(label=label, dates="1 date" if dates == 1 else f"{dates} dates", name=f"a {date:%A}", date=f"{date:%Y%m%d}")


def with_key(settings: bytes, key: str, value: str) -> bytes:
    """The text of a `desk.toml` with another text as the value of a key, in the line that it has for it, or in one above all others.

    A comment behind the value stays.
    """
    pattern = rb"(?m)^[ \t]*" + key.encode() + rb"[ \t]*=[ \t]*(?:\"[^\"\n]*\"|'[^'\n]*'|[^#\r\n]*?)(?=[ \t]*(?:#|\r?$))"
    line = f"{key} = {quoted(value)}".encode()
    changed, count = re.subn(pattern, lambda found: line, settings, count=1)
    return changed if count else line + b"\n" + settings


def _is_text(name: str) -> bool:
    """Whether a name is UTF-8 in its file."""
    return not re.search("[\ud800-\udfff]", name)


def _quoted(name: str) -> str:
    """A name as TOML has it in quotes, on one line."""
    letters = {'"': '\\"', "\\": "\\\\"}
    return '"' + "".join(letters.get(letter, letter if letter.isprintable() else "?") for letter in name) + '"'
