"""What is wrong with the keys of a `desk.toml` that is refused, and with their values."""
from __future__ import annotations

import calendar
import datetime
import re
from typing import Any

from desk.calendars import parse_date
from desk.errors import DeskError
from desk.hints.forms import KEYS, NAMED, PREFERRED
from desk.hints.names import Known, folded, shown
from desk.hints.toml import MOST_INTEGER, entry_line, quoted_line
from desk.hints.trips import TripFile
from desk.town import Town


def key_hints(town: Town, key: str) -> list[str]:
    """Why the value of a key of `desk.toml` is refused, or which key is meant."""
    try:
        settings = town.settings
    except DeskError:
        return []
    if key not in settings:
        return []
    value = settings[key]
    if key not in KEYS:
        return [_unknown_key(town, key, value)]
    if key in ("classes", "layovers") and isinstance(value, dict):
        return _entry_hints(town, key, value)
    why = _why(key, value)
    meant = _meant_date(value) if key == "date" else None
    form = f'`date = "{meant}"`' if meant else KEYS[key]
    return [f"desk.toml: {why}. Write {form}."] if why else []


def _unknown_key(town: Town, key: str, value: Any) -> str:
    """What an unknown key may mean: a known one, or a terminal or a route that stands above its table."""
    known = Known(KEYS)
    meant = known.alike(key) or known.nearest(key)
    if meant:
        return f"desk.toml: `{key}` is no key. The nearest one is `{meant}`: write {KEYS[meant]}."
    if isinstance(value, int) and folded(key) in {folded(name) for name in (*town.terminals.values(), *town.stops)}:
        return f"desk.toml: {shown(key)} is a terminal. Its line stands below `[layovers]`."
    if isinstance(value, str) and key in TripFile(town).routes:
        return f"desk.toml: {shown(key)} is a route. Its line stands below `[classes]`."
    names = ", ".join(f"`{name}`" for name in KEYS)
    return f"desk.toml: {shown(key)} is no key. The keys are {names}."


def _entry_hints(town: Town, key: str, table: dict[str, Any]) -> list[str]:
    """What is wrong with the first entry of a table that is not in form."""
    for name, value in table.items():
        if isinstance(value, dict):
            found = entry_line(town.path("desk.toml"), name)
            if found is None:
                return [f"desk.toml: {shown(name)} in [{key}] is a table. Write {KEYS[key]}."]
            number, line = found
            return [f"desk.toml line {number}: {shown(line)}: a name with a point stands in double quotes: write `{quoted_line(line)}`."]
        why = _why_class(name, value) if key == "classes" else _why_minutes(f"{shown(name)} in [layovers]", value, 240)
        if why and name in KEYS and _why(name, value) is None:
            return [f"desk.toml: `{name}` stands below [{key}]. Write the line above [{key}], and above every other line in brackets."]
        if why:
            return [f"desk.toml: {why}. Write {KEYS[key]}."]
    return []


def _why(key: str, value: Any) -> str | None:
    """What is wrong with the value of a known key; None where nothing is."""
    if key == "date":
        return _why_date(value)
    if key == "services":
        return _why_texts(key, value)
    if key == "prefer":
        return _why_texts(key, value) or _why_preferred(value)
    if key in ("classes", "layovers"):
        return f"`{key}` is {_kind(value)} and no table"
    if key == "block_prefix":
        return _why_prefix(value)
    if key == "block_names":
        return _why_named(value)
    return _why_minutes(f"`{key}`", value, 240 if key == "layover" else 60)


def _why_date(value: Any) -> str | None:
    """What is wrong with a date."""
    if isinstance(value, (int, datetime.date)):
        return "`date` stands without quotes"
    if not isinstance(value, str):
        return f"`date` is {_kind(value)} and no text in quotes"
    if value != value.strip(" "):
        return f"`date` has spaces, {shown(value)}"
    if parse_date(value) is not None:
        return None
    if re.fullmatch("[0-9]{8}", value):
        return f"`date` is {shown(value)}, and there is no such date{_days_of(value)}"
    if re.fullmatch("[0-9]{4}[-./ ][0-9]{1,2}[-./ ][0-9]{1,2}", value):
        return f"`date` has other signs between its digits, {shown(value)}"
    return f"`date` is {shown(value)}, not the digits of year, month and day"


def _meant_date(value: Any) -> str | None:
    """The date that a value means which is not in form, as `desk.toml` has it."""
    digits = re.sub("[-./ ]", "", str(value)) if type(value) in (int, str, datetime.date) and len(repr(value)) < 40 else ""
    return digits if parse_date(digits) else None


def _days_of(digits: str) -> str:
    """How many days the month has of a date that does not exist."""
    year, month = int(digits[:4]), int(digits[4:6])
    if not (year and 1 <= month <= 12):
        return ""
    return f": {calendar.month_name[month]} {year} has {calendar.monthrange(year, month)[1]} days"


def _why_texts(key: str, value: Any) -> str | None:
    """What is wrong with a list of texts."""
    if not isinstance(value, list):
        return f"`{key}` is {_kind(value)} and no list"
    wrong = next((item for item in value if not isinstance(item, str)), None)
    return None if wrong is None else f"`{key}` has {_kind(wrong)} in its list"


def _why_preferred(names: list[str]) -> str | None:
    """What is wrong with a list of what is preferred."""
    for at, name in enumerate(names):
        if name not in PREFERRED:
            return f"`prefer` has {shown(name)} in its list"
        if name in names[:at]:
            return f"`prefer` has {shown(name)} twice in its list"
    return None


def _why_prefix(value: Any) -> str | None:
    """What is wrong with a prefix of names."""
    if not isinstance(value, str):
        return f"`block_prefix` is {_kind(value)} and no text in quotes"
    size = len(value.encode())
    return f"`block_prefix` has {size} bytes" if size > 32 else None


def _why_named(value: Any) -> str | None:
    """What is wrong with how blocks are to be named."""
    if not isinstance(value, str):
        return f"`block_names` is {_kind(value)} and no text in quotes"
    return None if value in NAMED else f"`block_names` is {shown(value)}"


def _why_class(route: str, value: Any) -> str | None:
    """What is wrong with the class of a route."""
    if not isinstance(value, str):
        return f"the class of {shown(route)} is {_kind(value)} and no text in quotes"
    if "/" in value:
        return f"the class {shown(value)} has a slash"
    size = len(value.encode())
    return None if 1 <= size <= 16 else f"the class {shown(value)} has {size} bytes"


def _why_minutes(name: str, value: Any, most: int) -> str | None:
    """What is wrong with a number of minutes."""
    if name == "`layover`" and isinstance(value, dict):
        return "`[layover]` is a table, and the table of terminals is called `[layovers]`"
    if type(value) is not int:
        return f"{name} is {_kind(value)} and no whole number"
    if 0 <= value <= most:
        return None
    return f"{name} is {value}" if abs(value) <= MOST_INTEGER else f"{name} is too large"


def _kind(value: Any) -> str:
    """What a value of TOML is, in words."""
    kinds = {bool: "true or false", int: "a number", float: "a number with a point", str: "a text", list: "a list",
             dict: "a table"}
    return kinds.get(type(value), "a date or a time without quotes")
