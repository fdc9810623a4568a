"""Answers blockdesk's questions with pandas, numpy and scipy. tools/bench calls it.

It puts the seconds of the step alone, and then the answer as blockdesk puts it. Only the seconds of `deficits` have the reading
of the feed in them.

`choice` judges the plan in blocks.csv: whether it is least, and whether of the least plans none is liked more, by `prefer` of
desk.toml. It plans anew by stages: the fewest vehicles and minutes, and then one preference after the other. Each stage has those
pairs alone that best plans of the stage before may have. linear_sum_assignment plans in floating point. But what a stage takes from
that is proved in whole numbers: prices, by which no plan is worth more, and the pairs that are worth just their prices.

Example: python3 tools/peers/peer.py plan /tmp/peaks
"""
import argparse
import pathlib
import time
import tomllib


def read_words() -> argparse.Namespace:
    """The command and the folder of the feed."""
    parser = argparse.ArgumentParser(prog="tools/peers/peer.py", description=__doc__,
                                     formatter_class=argparse.RawDescriptionHelpFormatter)
    parser.add_argument("command", choices=["deficits", "fixed", "walks", "plan", "check", "choice"], help="the question")
    parser.add_argument("feed", metavar="FEED", type=pathlib.Path, help="the folder of the feed")
    told = parser.parse_args()
    if not told.feed.is_dir():
        parser.error(f"{told.feed} is no folder")
    return told


# The words are read before the libraries are sought, which --help does not need.
TOLD = read_words() if __name__ == "__main__" else None

import numpy as np
import pandas as pd
from scipy.optimize import linear_sum_assignment
from scipy.sparse.csgraph import shortest_path

VEHICLE, NONE = 67_108_864, 1 << 20
FAR = 1 << 55
PREFERRED = ["stated", "line", "waiting"]


def table(folder, name, columns):
    return pd.read_csv(folder / name, dtype=str, usecols=columns, keep_default_na=False)


def seconds(times):
    return pd.to_timedelta(times).dt.total_seconds().astype(int)


def trips_of(folder):
    """The trips that run, in their order: the terminals between which they run, and the minutes at which they depart and end."""
    desk = settings(folder)
    trips = table(folder, "trips.txt", ["service_id", "trip_id"])
    if "services" in desk:
        trips = trips[trips.service_id.isin(desk["services"])]
    rows = table(folder, "stop_times.txt", ["trip_id", "arrival_time", "departure_time", "stop_id", "stop_sequence"])
    rows = rows[rows.trip_id.isin(trips.trip_id)]
    rows = rows.assign(stop_sequence=rows.stop_sequence.astype(int)).sort_values("stop_sequence", kind="stable")
    ends = rows.groupby("trip_id", sort=False)
    first, last = (end.set_index("trip_id").loc[trips.trip_id] for end in (ends.head(1), ends.tail(1)))
    named = {}
    if (folder / "terminals.csv").exists():
        named = dict(table(folder, "terminals.csv", ["stop_id", "terminal"]).itertuples(index=False))
    start, end = (stops.map(lambda stop: named.get(stop, stop)) for stops in (first.stop_id, last.stop_id))
    departs = seconds(first.departure_time.where(first.departure_time != "", first.arrival_time)) // 60
    arrives = -(-seconds(last.arrival_time.where(last.arrival_time != "", last.departure_time)) // 60)
    own, layover = desk.get("layovers", {}), desk.get("layover", 0)
    layovers = end.map(lambda terminal: own.get(terminal, layover))
    return pd.DataFrame({"start": start, "end": end, "departs": departs, "ends": arrives + layovers})


def deficits(trips):
    """The sum of the maxima of the deficit functions."""
    changes = pd.concat([
        pd.DataFrame({"place": trips.start, "minute": trips.departs, "change": 1}),
        pd.DataFrame({"place": trips.end, "minute": trips.ends, "change": -1}),
    ])
    changes = changes.groupby(["place", "minute"], sort=True).change.sum()
    return f"sum {changes.groupby(level='place').cumsum().groupby(level='place').max().clip(lower=0).sum()}"


def fixed(trips):
    """The blocks without deadheads, first in first out: as many as trips that no vehicle waits for."""
    links = 0
    waits = {place: sorted(ends) for place, ends in trips.groupby("end").ends}
    for place, departs in trips.groupby("start").departs:
        ends, taken = waits.get(place, []), 0
        for departure in sorted(departs):
            if taken < len(ends) and ends[taken] <= departure:
                taken += 1
        links += taken
    return f"fixed {len(trips) - links}"


def walks_of(folder, trips):
    """The numbers of the places, and the least minutes between each two of them."""
    entries = table(folder, "deadheads.csv", ["from", "to", "minutes"])
    names = pd.unique(pd.concat([trips.start, trips.end, entries["from"], entries["to"]]))
    number = dict(zip(names, range(len(names))))
    ways = np.full((len(names), len(names)), np.inf)
    ways[entries["from"].map(number), entries["to"].map(number)] = entries["minutes"].astype(int)
    began = time.perf_counter()
    walks = shortest_path(ways, method="D")
    took = time.perf_counter() - began
    return number, np.where(np.isinf(walks), NONE, walks).astype(int), took


def weights_of(folder, trips):
    """What each pair saves: a vehicle less the deadhead, and nothing where it does not fit. And the seconds of the walks."""
    number, walks, took = walks_of(folder, trips)
    start, end = trips.start.map(number).to_numpy(), trips.end.map(number).to_numpy()
    minutes = walks[end[:, None], start[None, :]]
    fits = trips.ends.to_numpy()[:, None] + minutes <= trips.departs.to_numpy()[None, :]
    return np.where(fits, VEHICLE - minutes, 0), took


def numbers(weights, before, after):
    """The vehicles and the deadhead minutes where each of these trips is followed by the other."""
    saved = weights[before, after]
    linked = saved > 0
    return f"vehicles {len(weights) - linked.sum()}, minutes {(VEHICLE - saved)[linked].sum()}"


def check(folder, weights):
    """Whether the prices of a feed prove its blocks."""
    names = table(folder, "trips.txt", ["trip_id"]).trip_id
    slot = dict(zip(names, range(len(names))))
    blocks = table(folder, "blocks.csv", ["block_id", "trip_id"])
    slots, same = blocks.trip_id.map(slot).to_numpy(), blocks.block_id.to_numpy()
    follows = same[1:] == same[:-1]
    before, after = slots[:-1][follows], slots[1:][follows]
    prices = table(folder, "prices.csv", ["trip_id", "leave", "enter"]).set_index("trip_id").loc[names].astype(int)
    leave, enter = prices.leave.to_numpy(), prices.enter.to_numpy()
    holds = (weights <= leave[:, None] + enter[None, :]).all() and (weights[before, after] > 0).all()
    tight = leave.sum() + enter.sum() == weights[before, after].sum()
    return f"{'yes' if holds and tight else 'no'}, {numbers(weights, before, after)}"


def settings(folder):
    """What desk.toml says."""
    path = folder / "desk.toml"
    return tomllib.loads(path.read_text()) if path.exists() else {}


def prices_of(worth, allowed, matched):
    """Whole prices of rows and of columns, of which each allowed pair is worth the sum at most, and each of these pairs just that.

    They are the lengths of shortest paths. Where there are none, the pairs are worth less than others might be, and this ends.
    """
    rows = np.arange(len(worth))
    lengths = np.where(allowed, worth[rows, matched][:, None] - worth, FAR)
    columns = np.zeros(len(worth), dtype=np.int64)
    for _ in range(len(worth) + 1):
        nearer = columns.copy()
        nearer[matched] = np.minimum(columns[matched], (lengths + columns[None, :]).min(axis=1))
        if (nearer == columns).all():
            enter = columns
            leave = worth[rows, matched] - enter[matched]
            assert (~allowed | (worth <= leave[:, None] + enter[None, :])).all(), "the prices are none"
            return leave, enter
        columns = nearer
    raise SystemExit("linear_sum_assignment has found no best plan")


def stage(worth, allowed):
    """The most that allowed pairs are worth, one of each row and of each column, and the pairs that are in any such best plan."""
    rows, matched = linear_sum_assignment(np.where(allowed, worth, -np.inf), maximize=True)
    leave, enter = prices_of(worth, allowed, matched)
    return worth[rows, matched].sum(), allowed & (worth == leave[:, None] + enter[None, :])


def liked_pairs(folder, trips, waits):
    """What each pair is liked, by each preference: 1 as neighbours of a stated block, 1 as of one line, and less what is waited."""
    found = pd.read_csv(folder / "trips.txt", dtype=str, keep_default_na=False).set_index("trip_id").loc[trips.index]
    order = np.argsort(trips.departs.to_numpy(), kind="stable")
    stated = np.zeros((len(trips), len(trips)), dtype=np.int64)
    if "block_id" in found:
        for name, places in pd.Series(order).groupby(found.block_id.to_numpy()[order], sort=False):
            if name:
                stated[places.to_numpy()[:-1], places.to_numpy()[1:]] = 1
    lines = found.route_id.to_numpy() if "route_id" in found else np.full(len(trips), "")
    of_one = (lines[:, None] == lines[None, :]) & (lines != "")[:, None]
    return {"stated": stated, "line": of_one.astype(np.int64), "waiting": -waits}


def planned_pairs(folder, trips):
    """The links of blocks.csv, each trip by its place."""
    slot = dict(zip(trips.index, range(len(trips))))
    blocks = table(folder, "blocks.csv", ["block_id", "trip_id"])
    slots, same = blocks.trip_id.map(slot).to_numpy(), blocks.block_id.to_numpy()
    follows = same[1:] == same[:-1]
    return slots[:-1][follows], slots[1:][follows]


def choice(folder, trips):
    """How much the plan of blocks.csv is liked, a line for each preference, and last whether no least plan is liked more."""
    number, walks, _ = walks_of(folder, trips)
    start, end = trips.start.map(number).to_numpy(), trips.end.map(number).to_numpy()
    minutes = walks[end[:, None], start[None, :]]
    waits = trips.departs.to_numpy()[None, :] - trips.ends.to_numpy()[:, None] - minutes
    pulls = np.zeros((2, len(number)), dtype=np.int64)
    if (folder / "depot.csv").exists():
        depot = table(folder, "depot.csv", ["terminal", "pull_out", "pull_in"])
        depot = depot[depot.terminal.isin(number)]
        pulls[:, depot.terminal.map(number)] = depot[["pull_out", "pull_in"]].astype(int).to_numpy().T
    out, home = pulls[0][start], pulls[1][end]
    fits = waits >= 0
    saved = np.where(fits, VEHICLE + home[:, None] + out[None, :] - minutes, 0)
    liked = liked_pairs(folder, trips, waits)
    before, after = planned_pairs(folder, trips)
    assert fits[before, after].all() and all(len(set(ends)) == len(ends) for ends in (before, after)), "blocks.csv is no blocking"
    most, allowed = stage(saved, np.ones_like(fits))
    vehicles, empty = divmod(int(len(trips) * VEHICLE + out.sum() + home.sum() - saved[before, after].sum()), VEHICLE)
    said, lines = f"vehicles {vehicles}, minutes {empty}", []
    if saved[before, after].sum() != most:
        return [f"no, {said}: there is a better plan"]
    for name in settings(folder).get("prefer", PREFERRED):
        worth = np.where(fits, liked[name], 0)
        own = worth[before, after].sum()
        most, allowed = stage(worth, allowed)
        if own != most:
            return [*lines, f"no, {said}: {name} {abs(own)}, and {abs(most)} in another plan"]
        lines.append(f"{name} {abs(own)}")
    return [*lines, f"yes, {said}"]


def main(command, folder):
    began = time.perf_counter()
    trips = trips_of(folder)
    if command == "deficits":
        answer = deficits(trips)
        took = time.perf_counter() - began
    elif command == "fixed":
        began = time.perf_counter()
        answer = fixed(trips)
        took = time.perf_counter() - began
    elif command == "choice":
        began = time.perf_counter()
        answer = "\n".join(choice(folder, trips))
        took = time.perf_counter() - began
    else:
        weights, walking = weights_of(folder, trips)
        began = time.perf_counter()
        if command == "check":
            answer = check(folder, weights)
        else:
            answer = numbers(weights, *linear_sum_assignment(weights.astype(float), maximize=True))
        took = walking if command == "walks" else time.perf_counter() - began
    print(took, answer, sep="\n")


if TOLD:
    main(TOLD.command, TOLD.feed)
