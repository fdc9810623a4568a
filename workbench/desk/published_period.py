"""`./desk publish` of a town with days: one feed for the whole period, read again before it is written."""
from __future__ import annotations

import sys
from collections import Counter
from collections.abc import Iterator, Sequence
from concurrent.futures import ThreadPoolExecutor
from contextlib import suppress
from pathlib import Path

from desk.counts import counted
from desk.day import Day, plan_day
from desk.errors import DeskError, complain
from desk.period import TownPeriod
from desk.period_check import judge_period
from desk.period_feed import make_period_feed
from desk.period_trips import DayPlan, PeriodTrips, day_plan, period_trips
from desk.processors import processors
from desk.proof import verdict_of
from desk.published_zip import write_judged
from desk.town import DAYS, Town, read_together


def publish_period(folder: Path, out: Path, replace: bool) -> tuple[list[DayPlan], int]:
    """Writes the zip, and says what was written and what was left out. Gives the plans and the status."""
    period = TownPeriod(folder)
    troubles = list(period.troubles())
    if troubles:
        raise DeskError(f"nothing is written: {troubles[0]}", [f"`./desk days {folder}` lists what is to be mended"])
    towns = [day.town for day in period.days]
    with suppress(DeskError):
        read_together(towns)
    with ThreadPoolExecutor(processors()) as pool:
        days = list(pool.map(_read, towns))
    plans = [day_plan(planned, day) for planned, day in zip(period.days, days)]
    trips = period_trips(period.town, plans)
    dropped = write_judged(out, replace, lambda feed: make_period_feed(period.town, plans, trips, feed),
                           lambda packed, _: judge_period(period, plans, trips, packed))
    sys.stdout.write("".join(f"{line}\n" for line in _lines(out, period, plans, trips, dropped)))
    return plans, _complain(plans)


def _read(town: Town) -> Day:
    """The day of a day type. A DeskError where the program does not prove it, or where no trip runs after its script."""
    place = f"{DAYS}/{town.folder.name}"
    try:
        day = plan_day(town)
        verdict = verdict_of(day)
    except DeskError as error:
        raise DeskError(f"nothing is written: {place}: {error}", error.hints) from error
    if verdict["verdict"] != "yes" or not day.blocks:
        raise DeskError(f"nothing is written: {place}: {verdict['reason'] if day.blocks else 'no trip runs'}")
    return day


def _lines(out: Path, period: TownPeriod, plans: Sequence[DayPlan], trips: PeriodTrips, dropped: Counter[str]) -> Iterator[str]:
    """What was written."""
    dates = period.found.dates
    yield (f"{out}: {counted(len(plans), 'day type')} of {counted(len(dates), 'date')}; read again, `audit` says least of each, and on "
           "every date the agency's trips run")
    for plan in plans:
        rides = sum(len(block.rides) for block in plan.day.blocks)
        yield f"{DAYS}/{plan.name}: {counted(rides, 'trip')} in {counted(len(plan.day.blocks), 'block')}"
    for plan in plans:
        if plan.cancelled:
            yield f"{DAYS}/{plan.name}: without its cancelled trips: {', '.join(sorted(plan.cancelled))}"
    for extra in trips.extras:
        yield f"extra trip {extra.name}, of service {extra.service}, in block {extra.block}"
    copies = list(trips.copies())
    yield f"copies: {len(copies)}, of trips that are in other blocks or at other times on other days"
    for name, version in copies:
        moved = f", {version.shift:+d} min" if version.shift else ""
        yield f"  {name} is {version.trip} of service {version.service}, in block {version.block}{moved}"
    for name, count in dropped.items():
        yield f"{name}: {counted(count, 'record')} of trips that are not in it left out"


def _complain(plans: Sequence[DayPlan]) -> int:
    """Says what was refused or left out, and gives the status."""
    status = 0
    for plan in plans:
        told = [f"edits.csv: {record.said}" for record in plan.day.records if not record.ok]
        told += [f"extra trip {name} is left out: {why}" for name, why in plan.unlisted.items()]
        for line in told:
            complain(f"{DAYS}/{plan.name}: {line}")
            status = 1
    return status
