"""`desk figures`: the hours, spans and waits of a plan, by line, by block, by place and by the quarter hour.

Vehicles and empty minutes are those that the program says. All else is added up from the minutes of its files.
"""
from __future__ import annotations

import argparse
import json
import statistics
import sys
from collections import Counter
from collections.abc import Iterable
from typing import Any

from desk.lines import LineNames
from desk.neighbours import count_neighbours
from desk.plans import Block, Plan, read_plan
from desk.records import record_text
from desk.times import format_minute
from desk.town import Town

WORD = "figures"
HELP = "hours, spans, waits, neighbours and vehicles in service of the plan"

QUARTER = 15
MOST_WAITS = 10
"""How many waits and places the text lists. The other forms have all."""

COLUMNS = ("table", "of", "figure", "value")
"""A figure, in minutes where it is a length of time: its table as in the JSON, or `all`, and the line, block, quarter, place or
number of a wait."""

Figures = dict[str, Any]


def add_arguments(parser: argparse.ArgumentParser) -> None:
    """The words of `desk figures`."""
    parser.add_argument("town", help="the folder, in which `blocks` and `joined` have written their files")
    form = parser.add_mutually_exclusive_group()
    form.add_argument("--json", action="store_true", help="as JSON, in minutes")
    form.add_argument("--csv", action="store_true", help="as records, in minutes")


def run(arguments: argparse.Namespace) -> int:
    """Prints the figures."""
    town = Town(arguments.town)
    figures = make_figures(read_plan(town), LineNames(town))
    if arguments.json:
        sys.stdout.write(json.dumps(figures, ensure_ascii=False, indent=2) + "\n")
    else:
        sys.stdout.write(figures_csv(figures) if arguments.csv else figures_text(figures))
    return 0


def make_figures(plan: Plan, lines: LineNames) -> Figures:
    """All figures of a plan, in minutes."""
    blocks = [block_figures(block) for block in plan.blocks]
    running = sum(block["platform"] + block["empty"] for block in blocks)
    return {
        "vehicles": plan.vehicles, "empty": plan.minutes, "trips": sum(block["trips"] for block in blocks),
        "platform": _sum(blocks, "platform"), "layover": _sum(blocks, "layover"), "waiting": _sum(blocks, "waiting"),
        "span": _sum(blocks, "span"), "empty_share": plan.minutes / running if running else 0.0, **neighbour_figures(plan),
        "spans": summary(blocks, "span"), "lengths": summary(blocks, "length"),
        "lines": line_figures(plan, lines), "blocks": blocks, "in_service": in_service(plan.blocks),
        "waits": waits(plan), "places": waits_by_place(plan)}


def neighbour_figures(plan: Plan) -> Figures:
    """How many trips follow on another one in their block, which of these the feed states, and where the line changes."""
    rides = [ride for block in plan.blocks for ride in block.rides]
    trips = [ride.trip for ride in rides if ride.trip]
    return count_neighbours(([ride.name for ride in block.rides] for block in plan.blocks), trips,
                            {ride.name: ride.departs for ride in rides})


def block_figures(block: Block) -> Figures:
    """The figures of a block. Its span is from the depot to the depot, and its length is the span without the waiting."""
    waiting = sum(ride.departs - since for ride, since in block.waits())
    span = block.returns - block.leaves
    return {"block": block.name, "leaves": format_minute(block.leaves), "returns": format_minute(block.returns),
            "trips": len(block.rides), "platform": sum(ride.arrives - ride.departs for ride in block.rides),
            "layover": sum(ride.layover for ride in block.rides), "waiting": waiting,
            "empty": sum(ride.empty for ride in block.rides) + block.home, "span": span, "length": span - waiting}


def summary(blocks: list[Figures], name: str) -> Figures | None:
    """The shortest, the median and the longest of the blocks, and their mean; None without blocks."""
    if not blocks:
        return None
    shortest, longest = (choose(blocks, key=lambda block: block[name]) for choose in (min, max))
    lengths = [block[name] for block in blocks]
    return {"shortest": shortest[name], "shortest_block": shortest["block"], "median": statistics.median(lengths),
            "mean": statistics.fmean(lengths), "longest": longest[name], "longest_block": longest["block"]}


def line_figures(plan: Plan, lines: LineNames) -> list[Figures]:
    """The figures of each line. What comes before a trip is its line's, and the way home is that of the last trip."""
    found: dict[str, Counter[str]] = {}
    for block in plan.blocks:
        waiting = {ride.name: ride.departs - since for ride, since in block.waits()}
        for ride in block.rides:
            home = block.home if ride is block.rides[-1] else 0
            found.setdefault(lines.of(ride.trip), Counter()).update({
                "trips": 1, "platform": ride.arrives - ride.departs, "layover": ride.layover,
                "empty": ride.empty + home, "waiting": waiting.get(ride.name, 0)})
    return [{"line": line} | dict(found[line]) for line in sorted(found, key=_natural)]


def in_service(blocks: Iterable[Block]) -> list[Figures]:
    """For each quarter hour the most vehicles that are away from the depot at one of its minutes."""
    changes: Counter[int] = Counter()
    for block in blocks:
        changes[block.leaves] += 1
        changes[block.returns] -= 1
    quarters: dict[int, int] = {}
    away = 0
    for minute in range(min(changes, default=0), max(changes, default=0)):
        away += changes[minute]
        quarter = minute - minute % QUARTER
        quarters[quarter] = max(away, quarters.get(quarter, 0))
    return [{"from": format_minute(quarter), "vehicles": vehicles} for quarter, vehicles in quarters.items()]


def waits(plan: Plan) -> list[Figures]:
    """The waits, the longest first. A vehicle waits where its next trip begins, once it is free and has run empty to it."""
    found = [(ride.departs - since, block.name, ride, since) for block in plan.blocks for ride, since in block.waits()]
    found.sort(key=lambda wait: -wait[0])
    return [{"block": name, "place": ride.start, "from": format_minute(since), "to": format_minute(ride.departs),
             "minutes": minutes, "trip": ride.name} for minutes, name, ride, since in found]


def waits_by_place(plan: Plan) -> list[Figures]:
    """The minutes that vehicles wait at each place, the most first."""
    minutes: Counter[str] = Counter()
    times: Counter[str] = Counter()
    for block in plan.blocks:
        for ride, since in block.waits():
            minutes[ride.start] += ride.departs - since
            times[ride.start] += 1
    return [{"place": place, "minutes": total, "waits": times[place]} for place, total in minutes.most_common()]


def figures_csv(figures: Figures) -> str:
    """The figures as records of a table, what they are of, a name and a value."""
    records = [COLUMNS]
    records += [("all", "", name, value) for name, value in figures.items() if not isinstance(value, (list, dict, type(None)))]
    for table in ("spans", "lengths"):
        records += [(table, "", name, value) for name, value in (figures[table] or {}).items()]
    for table, key in (("lines", "line"), ("blocks", "block"), ("in_service", "from"), ("places", "place")):
        for row in figures[table]:
            records += [(table, row[key], name, value) for name, value in row.items() if name != key]
    for number, wait in enumerate(figures["waits"], 1):
        records += [("waits", number, name, value) for name, value in wait.items()]
    return "".join(record_text([str(field) for field in record]) for record in records)


def figures_text(figures: Figures) -> str:
    """The figures as a text for the office."""
    parts = [_text_of_all(figures)]
    if figures["blocks"]:
        parts += [_text_of_lines(figures), _text_of_blocks(figures), _text_of_service(figures), _text_of_waits(figures)]
    return "\n".join(parts)


def _text_of_all(figures: Figures) -> str:
    """The sums."""
    share = f"{100 * figures['empty_share']:.1f} % of platform and empty"
    lines = [f"vehicles {figures['vehicles']}, empty minutes {figures['empty']}, as the program says",
             f"trips {figures['trips']}", "hours and minutes:", f"platform {hours(figures['platform'])}",
             f"layover {hours(figures['layover'])}",
             f"empty {hours(figures['empty'])}, {share}", f"waiting {hours(figures['waiting'])}", f"in all {hours(figures['span'])}"]
    for name, title in (("spans", "span, from the depot to the depot"), ("lengths", "length, the span without waiting")):
        if found := figures[name]:
            lines.append(f"{title}: shortest {hours(found['shortest'])} ({found['shortest_block']}), median "
                         f"{hours(round(found['median']))}, mean {hours(round(found['mean']))}, longest {hours(found['longest'])} "
                         f"({found['longest_block']})")
    lines += [f"neighbours in blocks {figures['neighbours']}, changes of line {figures['line_changes']}",
              f"neighbours that the feed states {figures['stated_neighbours']}, kept {figures['kept_neighbours']}"]
    return "".join(line + "\n" for line in lines)


def _text_of_lines(figures: Figures) -> str:
    """The table of the lines."""
    rows = [[row["line"] or "(extra)", str(row["trips"]), *(hours(row[name]) for name in ("platform", "layover", "empty", "waiting"))]
            for row in figures["lines"]]
    return columns(["line", "trips", "platform", "layover", "empty", "waiting"], rows)


def _text_of_blocks(figures: Figures) -> str:
    """The table of the blocks."""
    names = ("platform", "layover", "empty", "waiting", "span", "length")
    rows = [[row["block"], row["leaves"], row["returns"], str(row["trips"]), *(hours(row[name]) for name in names)]
            for row in figures["blocks"]]
    return columns(["block", "leaves", "home", "trips", *names], rows)


def _text_of_service(figures: Figures) -> str:
    """The vehicles that are away from the depot, a line for each hour."""
    found: dict[str, list[str]] = {}
    for row in figures["in_service"]:
        sign, hour = ("-" if row["from"].startswith("-") else ""), row["from"].lstrip("-").partition(":")[0]
        found.setdefault(sign + hour, []).append(f"{row['from']} {row['vehicles']}")
    return "vehicles away from the depot, the most in each quarter hour\n" + "".join(
        " " + "  ".join(quarters) + "\n" for quarters in found.values())


def _text_of_waits(figures: Figures) -> str:
    """Where vehicles wait longest."""
    places = [[row["place"], hours(row["minutes"]), str(row["waits"])] for row in figures["places"][:MOST_WAITS]]
    longest = [[row["block"], row["place"], row["from"], row["to"], hours(row["minutes"]), row["trip"]]
               for row in figures["waits"][:MOST_WAITS]]
    return (columns(["they wait at", "in all", "waits"], places) + "\n"
            + columns(["longest waits", "at", "from", "to", "time", "before"], longest))


def hours(minutes: int) -> str:
    """A length of time in hours and minutes, `7:05`."""
    return f"{minutes // 60}:{minutes % 60:02}"


def columns(head: list[str], rows: list[list[str]]) -> str:
    """A table in columns: words at the left, times and numbers at the right."""
    widths = [max(map(len, column)) for column in zip(head, *rows)]
    right = [bool(rows) and all(cell[-1:].isdigit() and cell[:1] in "-0123456789" for cell in column) for column in zip(*rows)]
    right = right or [False] * len(head)
    lines = ["  ".join(cell.rjust(width) if number else cell.ljust(width) for cell, width, number in zip(row, widths, right)).rstrip()
             for row in [head, *rows]]
    return "".join(line + "\n" for line in lines)


def _sum(rows: list[Figures], name: str) -> int:
    """The sum of a figure of all rows."""
    return sum(row[name] for row in rows)


def _natural(line: str) -> tuple[bool, int, str]:
    """The order of lines: by their numbers, then by their letters, extra trips last."""
    digits = "".join(letter for letter in line if letter.isascii() and letter.isdigit())
    return line == "", int(digits[:9]) if digits else 1 << 30, line
