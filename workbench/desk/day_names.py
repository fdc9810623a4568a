"""What day types are called: by their weekdays, by school days and holidays where services are named so, or by their dates."""
from __future__ import annotations

import datetime
import re
from collections import Counter
from collections.abc import Collection, Iterable, Sequence
from typing import NamedTuple

from desk.stations import distinct

WEEKDAYS = ("Monday", "Tuesday", "Wednesday", "Thursday", "Friday", "Saturday", "Sunday")
MONTHS = ("January", "February", "March", "April", "May", "June", "July", "August", "September", "October", "November", "December")

SCHOOL = re.compile("school|schul|skole|skola|escol|scol|scuol|ecole|école", re.IGNORECASE)
FREE = re.compile("no[nt]?[ _-]*school|schulfrei|holiday|ferien|vacanc|vacation|hors", re.IGNORECASE)
"""What the names of services have that run on school days, and of those that do not."""

MOST_LISTED = 3
"""How many dates stand in a name one by one."""

YEAR = 366
"""In a period of more days the dates of a name have their years."""


class Dates(NamedTuple):
    """The dates of a day type in order, and the services that run on them."""

    dates: Sequence[datetime.date]
    services: frozenset[str]

    @property
    def weekdays(self) -> set[int]:
        """The days of the week that its dates have."""
        return {date.weekday() for date in self.dates}

    @property
    def has_school(self) -> bool:
        """Whether one of its services has a name of school days."""
        return any(SCHOOL.search(name) and not FREE.search(name) for name in self.services)


def names_of(types: Sequence[Dates]) -> list[tuple[str, str]]:
    """For each day type a name for people, and a short one for a folder. No two have the same."""
    every = [date for found in types for date in found.dates]
    with_year = bool(every) and (max(every) - min(every)).days > YEAR
    usual = {weekday: found for weekday in range(7) if (found := _usual(types, weekday))}
    schools = [found for found in types if found.has_school]
    names: list[tuple[str, str]] = []
    for found in types:
        own = {weekday for weekday, other in usual.items() if other is found}
        label, folder = _name(found, own, types, with_year)
        if not own and _is_holiday(found, usual):
            label, folder = "holidays", "holidays"
        elif own and found in schools and any(not other.has_school and other.weekdays & own for other in types):
            label, folder = f"school days, {label}", f"school-{folder}"
        label = distinct(label, _range(found.weekdays, " to "), lambda name: name in [label for label, _ in names])
        names.append((label, free_name(folder, [folder for _, folder in names])))
    return names


def _usual(types: Sequence[Dates], weekday: int) -> Dates | None:
    """The day type that most dates of a weekday are of; None where there is no such date."""
    counts = Counter({number: sum(date.weekday() == weekday for date in found.dates) for number, found in enumerate(types)})
    number, count = counts.most_common(1)[0] if counts else (0, 0)
    return types[number] if count else None


def _is_holiday(found: Dates, usual: dict[int, Dates]) -> bool:
    """Whether a day type has none of the school services that are usual on all of its weekdays, on several dates."""
    return len(found.dates) > MOST_LISTED and not found.has_school and all(usual[weekday].has_school for weekday in found.weekdays)


def _name(found: Dates, own: set[int], types: Sequence[Dates], with_year: bool) -> tuple[str, str]:
    """The two names by weekdays or dates. `own` has the weekdays on which it is usual."""
    if own and (len(found.dates) > 1 or len(types) == 1):
        return _range(own, " to "), _range(own, "-", short=True)
    first, last = found.dates[0], found.dates[-1]
    folder = short_date(first) + (f"-{first.year}" if with_year else "")
    if len(found.dates) <= MOST_LISTED:
        told = [long_date(date, with_year) for date in found.dates]
        return " and ".join(filter(None, [", ".join(told[:-1]), told[-1]])), folder
    weekdays = _range(found.weekdays, " to ")
    return (f"{weekdays}, {long_date(first, with_year)} to {long_date(last, with_year)}",
            f"{_range(found.weekdays, '-', short=True)}-{folder}")


def _range(weekdays: Iterable[int], to: str, short: bool = False) -> str:
    """Days of a week: `Monday to Thursday`, `Friday`, `Monday, Wednesday and Friday`, or in short `mon-thu`, `mon-wed-fri`."""
    days = sorted(weekdays)
    names = [WEEKDAYS[day][:3].lower() if short else WEEKDAYS[day] for day in days]
    if len(days) > 2 and days[-1] - days[0] == len(days) - 1:
        return f"{names[0]}{to}{names[-1]}"
    if short:
        return "-".join(names)
    return " and ".join(filter(None, [", ".join(names[:-1]), names[-1]]))


def long_date(date: datetime.date, with_year: bool = True) -> str:
    """A date in words, `24 December 2026`."""
    return f"{date.day} {MONTHS[date.month - 1]}" + (f" {date.year}" if with_year else "")


def short_date(date: datetime.date) -> str:
    """A date as a name of a folder has it, `24-dec`."""
    return f"{date.day}-{MONTHS[date.month - 1][:3].lower()}"


def free_name(name: str, taken: Collection[str]) -> str:
    """A name, or with a number behind it the first that is free."""
    return next(other for number in range(1, len(taken) + 2) if (other := name if number == 1 else f"{name}-{number}") not in taken)
