"""`pairs.csv` as it is drafted: the pairs of trips that the agency's `transfers.txt` links are kept together."""
from __future__ import annotations

from collections.abc import Iterable, Sequence

from desk.counts import counted, some
from desk.day_types import trips_of_services
from desk.files import write_whole
from desk.neighbours import Pair
from desk.new.days import NewDays
from desk.new.report import Report
from desk.pair_rules import FILE, IN_SEAT, KEEP, TRANSFERS, Rule, linked_trips, rules_text
from desk.town import Town


def draft_pairs(town: Town, days: NewDays | None, report: Report) -> None:
    """Drafts `pairs.csv`, where trips that run are linked."""
    pairs = chosen_pairs(town, days, report)
    if pairs:
        write_whole(town.path(FILE), rules_text(Rule(0, before, after, KEEP) for before, after in pairs))
        report.draft(FILE, f"{counted(len(pairs), 'pair')} of trips kept together, which transfer_type {IN_SEAT} of {TRANSFERS} links")
        report.look(FILE, "a kept pair that does not fit costs a vehicle: `notes` names those")


def chosen_pairs(town: Town, days: NewDays | None, report: Report, there: Sequence[Rule] = ()) -> list[Pair]:
    """The linked pairs that can be kept beside the rules that are there: their trips run, and no trip is in two of them on one side.

    Where there are day types, both trips run on the same ones.
    """
    running = trips_by_day(town, days)
    known = {rule.pair for rule in there}
    kept = [rule.pair for rule in there if rule.keeps]
    befores, afters = {before for before, _ in kept}, {after for _, after in kept}
    chosen: list[Pair] = []
    apart, shared = [], []
    for pair in linked_trips(town):
        before, after = pair
        if pair in known or not any(before in trips or after in trips for trips in running):
            continue
        if any((before in trips) != (after in trips) for trips in running):
            apart.append(f"{before} to {after}")
        elif before in befores or after in afters:
            shared.append(f"{before} to {after}")
        else:
            chosen.append(pair)
            befores.add(before)
            afters.add(after)
    for why, left in (("one trip runs without the other", apart), ("one trip is kept with another one", shared)):
        if left:
            report.look(FILE, f"{counted(len(left), 'linked pair')} left out, since {why}: {some(left)}")
    return chosen


def trips_by_day(town: Town, days: NewDays | None) -> Iterable[frozenset[str]]:
    """The trips that run on the day, or on each day type."""
    if days is None:
        return [frozenset(town.selected)]
    services = trips_of_services(town.path("trips.txt"))
    return [frozenset().union(*(services[name] for name in kind.services)) for kind in days.found.types]
