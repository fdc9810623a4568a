"""The feed that is handed over, read again: its blocks are least, and each trip is there once, at its times and in its block."""
from __future__ import annotations

from collections import Counter
from collections.abc import Iterable, Mapping
from pathlib import Path
from tempfile import TemporaryDirectory
from typing import Any

from desk.answers import ask
from desk.day import Day
from desk.errors import DeskError
from desk.hints.names import shown
from desk.layovers import with_layovers
from desk.published_feed import Handover
from desk.records import open_records, record_text
from desk.times import arrival_minute, departure_minute, format_minute
from desk.toml import toml_text
from desk.town import DayTrip, Town
from desk.unpacking import unpack

PLANNER_FILES = ("terminals.csv", "deadheads.csv", "depot.csv", "pairs.csv")
"""The planner's files with which the feed is read again."""

PAIRS = "pairs.csv"
"""The one of them that names trips."""

Run = tuple[str, int, str, int, str]
"""A trip: from where it departs at which minute, where it arrives at which one, and its block."""


def judge(day: Day, feed: Path, made: Handover) -> None:
    """A DeskError where a feed does not say what the plan says, or where its blocks are not least."""
    with TemporaryDirectory(prefix="desk-") as name:
        folder = Path(name)
        unpack(feed, folder)
        town = as_planned(day, folder, [made.service])
        _judge_trips(day, town, made)
        judge_blocks(day, town, made.unlisted)


def as_planned(day: Day, folder: Path, services: Iterable[str], names: Mapping[str, str] | None = None) -> Town:
    """The town of a folder with a feed, which gets the planner's files and settings of a day, and these services beside the listed ones.

    `names` has the trips that are named otherwise in the feed, which `pairs.csv` then names so too.
    """
    for file in PLANNER_FILES:
        (folder / file).unlink(missing_ok=True)
        if day.town.has(file):
            (folder / file).symlink_to(day.town.path(file).resolve())
    if names and day.town.has(PAIRS):
        (folder / PAIRS).unlink()
        (folder / PAIRS).write_text(pairs_named(day.town, names), encoding="utf-8", errors="surrogateescape")
    (folder / "desk.toml").unlink(missing_ok=True)
    (folder / "desk.toml").write_text(toml_text(_settings(day, services)), encoding="utf-8")
    return Town(folder)


def pairs_named(town: Town, names: Mapping[str, str]) -> str:
    """The `pairs.csv` of a town with other names of some trips."""
    with open_records(town.path(PAIRS)) as records:
        trips = [records.column(column) for column in ("before", "after")]
        lines = [record_text(records.header)]
        for _, fields in records:
            for at in trips:
                fields[at] = names.get(fields[at], fields[at])
            lines.append(record_text(fields))
        return "".join(lines)


def _settings(day: Day, services: Iterable[str]) -> dict[str, Any]:
    """The settings with which the feed is read: those of the town, with these services.

    A terminal that extra trips alone end at is met in `deadheads.csv` first, so its layover is 0 and not that of other terminals.
    """
    layovers = {day.town.of_post(ride.end): ride.layover for block in day.blocks for ride in block.rides if ride.trip is None}
    settings = with_layovers(day.town.settings, layovers)
    if isinstance(settings.get("services"), list):
        settings["services"] = [*settings["services"], *services]
    return settings


def _judge_trips(day: Day, town: Town, made: Handover) -> None:
    """Judges that each trip is there once, between its places, at its minutes and in its block."""
    wanted: dict[str, Run] = {ride.name: (ride.start, ride.departs, ride.end, ride.arrives, block.name)
              for block in day.blocks for ride in block.rides if ride.name not in made.unlisted}
    found = {trip.trip_id: _run(trip) for trip in town.day()}
    wrong = next((name for name in [*wanted, *found] if wanted.get(name) != found.get(name)), None)
    if wrong is not None:
        raise DeskError(f"nothing is written: trip {wrong} is not in the feed as it is in the plan: there {_told(found.get(wrong))}, "
                        f"here {_told(wanted.get(wrong))}")
    names = Counter(_names(day.town)) - Counter(made.cancelled) + Counter(list(made.extras))
    if Counter(_names(town)) != names:
        raise DeskError("nothing is written: the feed has other trips of other days than the town")


def _run(trip: DayTrip) -> Run:
    """What the feed says of a trip."""
    return trip.start, departure_minute(trip.departure or 0), trip.end, arrival_minute(trip.arrival or 0), trip.block_id


def _told(run: Run | None) -> str:
    """What is said of a trip, in words."""
    if run is None:
        return "it is missing"
    start, departs, end, arrives, block = run
    return f"from {shown(start)} {format_minute(departs)} to {shown(end)} {format_minute(arrives)} in block {block}"


def _names(town: Town) -> Iterable[str]:
    """The trips of all days."""
    with open_records(town.path("trips.txt")) as records:
        at = records.column("trip_id")
        return [fields[at] for _, fields in records]


def judge_blocks(day: Day, town: Town, unlisted: Mapping[str, str]) -> None:
    """Judges that `audit` says of the blocks that they are least, and as many as those of the plan where no trip is left out."""
    said = ask("audit", town)
    why = ""
    if said["verdict"] == "no":
        first = said["misfits"][0]
        why = f"no vehicle makes {first['second']} after {first['first']}"
    elif said["verdict"] != "least":
        what, number = next(iter(said["above"].items()))
        why = f"above by {number} {what}"
    elif not unlisted and (said["vehicles"], said["minutes"]) != day.cost[1:]:
        why = f"it says {said['vehicles']} vehicles and {said['minutes']} minutes"
    if why:
        left = "".join(f"; extra trip {name} is left out: {reason}" for name, reason in unlisted.items())
        raise DeskError(f"nothing is written: `audit` of the feed does not say `least`: {why}{left}")
