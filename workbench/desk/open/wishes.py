"""Wishes of a planner: which trips follow on one another. Each gives records of `pairs.csv`, and may take some back.

To put a trip on another bus is to keep it with the trip of that bus before it. To swap two tails is to keep each head with the other
tail. A frozen block keeps all its neighbours.
"""
from __future__ import annotations

from collections.abc import Callable, Sequence
from typing import NamedTuple

from desk.day import Day
from desk.errors import DeskError, UsageError
from desk.neighbours import neighbours
from desk.pair_rules import KEEP, NEVER, Rule, in_the_way, read_rules
from desk.plans import Block
from desk.texts import Json


class Wish(NamedTuple):
    """A wish in words, with the rules that it gives and those that are taken back with it."""

    words: str
    added: Sequence[Rule]
    taken: Sequence[Rule]


class Blocks:
    """The blocks of a day, by their names and by their trips."""

    def __init__(self, day: Day) -> None:
        self.named = {block.name: block for block in day.blocks}
        self.places = {ride.name: (block, at) for block in day.blocks for at, ride in enumerate(block.rides)}

    def block(self, name: str) -> Block:
        """The block of a name."""
        if name not in self.named:
            raise DeskError(f"no block is called {name}")
        return self.named[name]

    def place(self, trip: str) -> tuple[Block, int]:
        """The block of a trip, and its place there."""
        if trip not in self.places:
            raise DeskError(f"{trip} does not run")
        return self.places[trip]

    def following(self, trip: str) -> str | None:
        """The trip that follows on one in its block."""
        block, at = self.place(trip)
        return block.rides[at + 1].name if at + 1 < len(block.rides) else None


def _put(blocks: Blocks, asked: Json) -> Wish:
    """A trip on another bus: behind the last trip there that ends before it departs, else before the first that departs behind it."""
    trip, target = _text(asked, "trip"), blocks.block(_text(asked, "block"))
    block, at = blocks.place(trip)
    if block is target:
        raise DeskError(f"{trip} is on {target.name} already")
    ride = block.rides[at]
    earlier = [other.name for other in target.rides if other.ends <= ride.departs]
    later = [other.name for other in target.rides if other.departs >= ride.ends]
    if earlier:
        return Wish(f"{trip} after {earlier[-1]} on {target.name}", [_keep(earlier[-1], trip)], [])
    if later:
        return Wish(f"{trip} before {later[0]} on {target.name}", [_keep(trip, later[0])], [])
    raise DeskError(f"each trip of {target.name} runs while {trip} does")


def _swap(blocks: Blocks, asked: Json) -> Wish:
    """What follows after each of two trips goes to the bus of the other one."""
    one, other = _text(asked, "trip"), _text(asked, "other")
    if blocks.place(one)[0] is blocks.place(other)[0]:
        raise DeskError(f"{one} and {other} are on one bus: choose trips of two")
    added = [_keep(head, tail) for head, tail in ((one, blocks.following(other)), (other, blocks.following(one))) if tail]
    if not added:
        raise DeskError(f"nothing follows on {one}, nor on {other}")
    return Wish(" and ".join(f"{rule.after} after {rule.before}" for rule in added), added, [])


def _never(blocks: Blocks, asked: Json) -> Wish:
    """A trip and the one that follows on it, never so."""
    trip = _text(asked, "trip")
    after = blocks.following(trip)
    if after is None:
        raise DeskError(f"nothing follows on {trip}")
    return Wish(f"{after} never straight after {trip}", [Rule(0, trip, after, NEVER)], [])


def _freeze(blocks: Blocks, asked: Json) -> Wish:
    """Each trip of a block with the next one."""
    block = blocks.block(_text(asked, "block"))
    added = [_keep(*pair) for pair in neighbours([[ride.name for ride in block.rides]])]
    if not added:
        raise DeskError(f"{block.name} has one trip, and nothing to keep")
    return Wish(f"{block.name} as it is", added, [])


def _thaw(blocks: Blocks, asked: Json, rules: Sequence[Rule]) -> Wish:
    """What keeps a block is taken back."""
    block = blocks.block(_text(asked, "block"))
    pairs = set(neighbours([[ride.name for ride in block.rides]]))
    taken = [rule for rule in rules if rule.keeps and rule.pair in pairs]
    if not taken:
        raise DeskError(f"nothing keeps {block.name}")
    return Wish(f"{block.name} not kept any more", [], taken)


def _back(asked: Json, rules: Sequence[Rule]) -> Wish:
    """A record is taken back."""
    taken = [rule for rule in rules if rule.record == asked.get("record")]
    if not taken:
        raise UsageError("there is no such wish")
    return Wish(f"without {told_rule(taken[0])}", [], taken)


def _keep(before: str, after: str) -> Rule:
    """Two trips that are kept together."""
    return Rule(0, before, after, KEEP)


def _text(asked: Json, name: str) -> str:
    """A text of what is asked. Without it this is a UsageError."""
    value = asked.get(name)
    if not isinstance(value, str):
        raise UsageError(f"this is no wish: {name} is missing or of another kind")
    return value


FRESH: dict[str, Callable[[Blocks, Json], Wish]] = {"put": _put, "swap": _swap, "never": _never, "freeze": _freeze}
"""The wishes that give records."""


def wish_of(day: Day, asked: Json) -> Wish:
    """What is wished of a day. Rules beside which the program would refuse it are taken back with it, and it gives none that is there."""
    word, rules = asked.get("wish"), read_rules(day.town)
    if word == "back":
        return _back(asked, rules)
    if word == "thaw":
        return _thaw(Blocks(day), asked, rules)
    if not isinstance(word, str) or word not in FRESH:
        raise UsageError("this is no wish")
    wish = FRESH[word](Blocks(day), asked)
    known = {rule[1:] for rule in rules}
    added = [rule for rule in wish.added if rule[1:] not in known]
    if not added:
        raise DeskError(f"{wish.words}: this is wished for already")
    return wish._replace(added=added, taken=in_the_way(rules, added))


def told_rule(rule: Rule) -> str:
    """A rule in words."""
    return f"{rule.before} to {rule.after} {rule.rule}"
