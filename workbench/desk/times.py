"""Times of the service day: seconds as the agency writes them, and minutes as the program prints them."""
from __future__ import annotations

import re

_TIME = re.compile(r" *([0-9]{1,2}):([0-5][0-9]):([0-5][0-9]) *")
_MINUTE = re.compile(r" *([0-9]{1,2}):([0-5][0-9]) *")

MOST_SECONDS = 359_999
"""The last time that the program reads, 99:59:59."""


def parse_time(text: str) -> int | None:
    """The seconds of `HH:MM:SS` or `H:MM:SS`, with any spaces round it; None where the text has another form."""
    found = _TIME.fullmatch(text)
    if found is None:
        return None
    return 3600 * int(found[1]) + 60 * int(found[2]) + int(found[3])


def is_no_time(text: str) -> bool:
    """Whether the field of a time counts as empty: it has no character, or spaces alone."""
    return not text.strip(" ")


def format_time(seconds: int) -> str:
    """Seconds as `HH:MM:SS`, with hours in at least two digits."""
    return f"{seconds // 3600:02}:{seconds // 60 % 60:02}:{seconds % 60:02}"


def parse_minute(text: str) -> int | None:
    """The minute of `HH:MM` or `H:MM`, with any spaces round it; None where the text has another form."""
    found = _MINUTE.fullmatch(text)
    return None if found is None else 60 * int(found[1]) + int(found[2])


def format_minute(minute: int) -> str:
    """A minute as the program prints it, `HH:MM` with hours in at least two digits; one before midnight has a minus."""
    if minute < 0:
        return "-" + format_minute(-minute)
    return f"{minute // 60:02}:{minute % 60:02}"


def departure_minute(seconds: int) -> int:
    """The minute in which a trip departs: rounded down."""
    return seconds // 60


def arrival_minute(seconds: int) -> int:
    """The minute in which a trip arrives: rounded up. It ends after the layover of its last place."""
    return -(-seconds // 60)
