"""`./desk rules TOWN`: what each rule of `pairs.csv` costs. The program plans the day with all rules, with none, and without each one."""
from __future__ import annotations

import argparse
import json
import sys
from collections.abc import Iterable
from concurrent.futures import ThreadPoolExecutor
from pathlib import Path

from desk.counts import counted
from desk.day import ask_in
from desk.errors import DeskError
from desk.hints.names import shown
from desk.pair_rules import FILE, Rule, read_rules, rules_text
from desk.period import day_folders
from desk.processors import processors
from desk.rooms import room_of, scripts_of
from desk.texts import Json
from desk.town import Town
from desk.written_texts import vehicles_text

WORD = "rules"
HELP = "what each rule of pairs.csv costs, in vehicles and in empty minutes"


def add_arguments(parser: argparse.ArgumentParser) -> None:
    """The words of `desk rules`."""
    parser.epilog = "Example: ./desk rules town makes a plan without each record, and each takes as long as `./desk blocks town`"
    parser.add_argument("town", type=Path, metavar="TOWN", help="the folder of the feed")
    parser.add_argument("--json", action="store_true", help="as JSON")


def run(arguments: argparse.Namespace) -> int:
    """Prints what each rule costs."""
    town = Town(arguments.town)
    first = next(iter(day_folders(town.folder)), None)
    if first is not None:
        raise DeskError(f"{town.folder} has days: name one of them, as `./desk {WORD} {first}`")
    if not town.has(FILE):
        raise DeskError(f"{FILE} is not in {town.folder}: there are no rules")
    found = costs(town)
    sys.stdout.write(json.dumps(found, ensure_ascii=False, indent=2) + "\n" if arguments.json else text_of(found))
    return 0


def costs(town: Town) -> Json:
    """The vehicles and minutes of the plans with all rules, with none, and without each one."""
    with_all = plan_with(town)
    rules = read_rules(town)
    with ThreadPoolExecutor(processors()) as pool:
        with_none, *without = pool.map(lambda kept: plan_with(town, kept), [[], *(_others(rules, rule) for rule in rules)])
    return {"all": with_all, "none": with_none,
            "rules": [{**rule._asdict(), "without": plan} for rule, plan in zip(rules, without)]}


def _others(rules: list[Rule], rule: Rule) -> list[Rule]:
    """The rules but one."""
    return [other for other in rules if other is not rule]


def plan_with(town: Town, rules: Iterable[Rule] | None = None) -> Json:
    """The vehicles and minutes that the program says of a town after its script: with these rules, or else with its own."""
    tried = {} if rules is None else {FILE: rules_text(rules).encode("utf-8", "surrogateescape")}
    with room_of(town, scripts_of(town) | tried) as room:
        told = ask_in(room, town, "blocks")
    return {"vehicles": told["vehicles"], "minutes": told["minutes"]}


def text_of(found: Json) -> str:
    """The costs as lines."""
    lines = [f"with all rules {vehicles_text(found['all'])}; with none {vehicles_text(found['none'])}"]
    for rule in found["rules"]:
        lines.append(f"record {rule['record']}: {shown(rule['before'])} to {shown(rule['after'])} {rule['rule']}: "
                     f"{cost_of(found['all'], rule['without'])}")
    return "".join(line + "\n" for line in lines)


def cost_of(with_all: Json, without: Json) -> str:
    """What a rule costs, by the plans with all rules and without this one."""
    vehicles, minutes = (with_all[name] - without[name] for name in ("vehicles", "minutes"))
    if not vehicles and not minutes:
        return "costs nothing"
    cost = counted(vehicles, "vehicle") if vehicles else counted(minutes, "minute")
    return f"costs {cost}, without it {vehicles_text(without)}"
