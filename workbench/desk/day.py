"""The day of a town: the plan of the program, and what the town's files say of the trips.

The program runs in a room with the town's files, where a `show` behind the script asks for the plan. So each minute of a block
is one that the program has said, and nothing is written into the town. It is one run; `proof` has what is asked of the plan.
"""
from __future__ import annotations

import datetime
import re
from dataclasses import dataclass, field
from pathlib import Path

from desk.answers import FeedRefused, ask
from desk.errors import DeskError
from desk.files import read_bytes
from desk.hints.refusals import refusal_hints
from desk.plans import Block, Ride
from desk.rooms import SCRIPTS, Scripts, room_of, scripts_of, state_of
from desk.scripts import Record, fields_of, judged, refuse_open_quote, with_edits, with_show
from desk.texts import Json, minute_of
from desk.times import arrival_minute, departure_minute, parse_minute
from desk.town import DayTrip, Town

CLAIM = ("blocks.csv", "prices.csv")
"""What the program writes of a plan, and judges."""


@dataclass(frozen=True, slots=True)
class Published:
    """A trip at the minutes from which its shifts count. `trip` is None for one that the script adds."""

    start: str
    end: str
    departs: int
    arrives: int
    trip: DayTrip | None


@dataclass(frozen=True, slots=True)
class Planners:
    """The edits of several planners: their records with what the program says of each, and those that stand."""

    records: list[Record]
    standing: list[Json]
    cost: tuple[int, int, int]

    def holder(self, said: str) -> str:
        """The record that holds this undo; empty where none does."""
        found = re.search("held by record ([0-9]+)$", said)
        if found is None:
            return ""
        planner, *edit = self.records[int(found[1]) - 1].fields
        return f"{planner}: {', '.join(edit)}"


@dataclass(frozen=True, slots=True)
class Proof:
    """What `check` says of a plan, and `deficits` of its timetable.

    `held` has what `planners` says to an undo of each planner to whom it refuses one.
    """

    verdict: Json
    deficits: Json
    held: dict[str, str]


@dataclass(frozen=True, slots=True)
class Day:
    """A plan of a town. `cost` is the vehicles without deadheads, the vehicles of the blocks, and their empty minutes.

    `scripts` are those after which it is, `shown` has the blocks as the program shows them, and `claim` the two files that it has
    written of them. `written` says whether the `blocks.csv` of the town is one of these: `same`, `other`, or `missing`. `proof` is None
    until it is asked for.
    """

    town: Town
    state: str
    scripts: Scripts
    shown: list[Json]
    blocks: list[Block]
    cost: tuple[int, int, int]
    claim: dict[str, bytes]
    records: list[Record]
    published: dict[str, Published]
    written: str
    planners: Planners | None
    proof: Proof | None = None
    made: datetime.datetime = field(default_factory=datetime.datetime.now)

    @property
    def script(self) -> bytes:
        """The script of the plan: with planners their edits that stand are behind it."""
        own = self.scripts.get("edits.csv", b"")
        return with_edits(own, self.planners.standing) if self.planners else own


def plan_day(town: Town, scripts: Scripts | None = None, with_planners: bool = False, before: Day | None = None) -> Day:
    """The day of a town after its scripts, or after these, without its proof. Without planners their script is passed over.

    What is as on a day before, of the same town, is the same object: the trips as they are published, and the blocks.
    """
    state = state_of(town)
    scripts = scripts_of(town) if scripts is None else scripts
    own = script = scripts.get("edits.csv", b"")
    refuse_open_quote("edits.csv", script)
    planners = read_planners(town, scripts) if with_planners else None
    if planners:
        script = with_edits(script, planners.standing)
    tried = {name: content for name, content in scripts.items() if name not in SCRIPTS}
    with room_of(town, tried | {"edits.csv": with_show(script)}) as room:
        told = ask_in(room, town, "blocks")
        claim = {name: read_bytes(room / name) for name in CLAIM}
    records = judged("edits.csv", with_show(script), told["records"])
    if not records[-1].ok:
        raise DeskError(f"edits.csv: a plan cannot be shown behind it: {records[-1].said}")
    count = len(fields_of("edits.csv", own))
    if not all(record.ok for record in records[count:]):
        raise DeskError("the program does not accept the planners' records that stand behind edits.csv")
    cost = told["fixed"], told["vehicles"], told["minutes"]
    if planners and planners.cost != cost:
        raise DeskError("the numbers of `planners` are not those of `blocks` with the same edits")
    published = _published(town, records, before)
    written = _compared(claim["blocks.csv"], town.path("blocks.csv"))
    shown = told["records"][-1].get("plan", {"blocks": []})["blocks"]
    blocks = _blocks(shown, published, bool(town.table("classes")), before)
    return Day(town, state, scripts, shown, blocks, cost, claim, records[:count], published, written, planners)


def read_planners(town: Town, scripts: Scripts) -> Planners:
    """What `planners` says of the planners' records."""
    script = scripts.get("planner_edits.csv", b"")
    refuse_open_quote("planner_edits.csv", script)
    with room_of(town, scripts) as room:
        told = ask_in(room, town, "planners")
    records = judged("planner_edits.csv", script, told["records"], "planner")
    return Planners(records, told["standing"], (told["fixed"], told["vehicles"], told["minutes"]))


def ask_in(room: Path, town: Town, command: str) -> Json:
    """What the program answers in a room of a town. Where it refuses the feed, the error says how that is mended."""
    try:
        return ask(command, town, room)
    except FeedRefused as error:
        raise DeskError(str(error), refusal_hints(town, error.said)) from error


def _compared(planned: bytes, stands: Path) -> str:
    """Whether the `blocks.csv` that stands is the one that is planned."""
    if not stands.is_file():
        return "missing"
    return "same" if read_bytes(stands) == planned else "other"


def _published(town: Town, records: list[Record], before: Day | None) -> dict[str, Published]:
    """The trips of a town and those that its script adds, by their names."""
    if before and before.town is town:
        found = {name: published for name, published in before.published.items() if published.trip}
    else:
        # The program has accepted these trips, so each has its times.
        found = {trip.trip_id: Published(
            trip.start, trip.end, departure_minute(trip.departure or 0), arrival_minute(trip.arrival or 0), trip) for trip in town.day()}
    for name, extra in _extras(records).items():
        known = before.published.get(name) if before else None
        found[name] = known if known and known == extra else extra
    return found


def _extras(records: list[Record]) -> dict[str, Published]:
    """The trips that a script adds, by their names. Where one name is added twice, the first was undone for good."""
    found = {}
    for record in records:
        if record.ok and record.fields[0] == "extra":
            _, name, start, end, departs, arrives = record.fields
            found[name] = Published(start, end, parse_minute(departs) or 0, parse_minute(arrives) or 0, None)
    return found


def _blocks(shown: list[Json], published: dict[str, Published], has_classes: bool, before: Day | None) -> list[Block]:
    """The blocks as the program shows them."""
    known: dict[str, tuple[Json, Block]] = {}
    if before:
        others = {name for name, trip in before.published.items() if published.get(name) is not trip}
        known = {block.name: (told, block) for told, block in zip(before.shown, before.blocks)
                 if not others or others.isdisjoint(ride.name for ride in block.rides)}
    blocks = []
    for told in shown:
        was = known.get(told["block"])
        blocks.append(was[1] if was and was[0] == told else _block(told, published, has_classes))
    return blocks


def _block(shown: Json, published: dict[str, Published], has_classes: bool) -> Block:
    """A block as the program shows it."""
    rides: list[Ride] = []
    for part in shown["trips"]:
        empty, before = (part["deadhead"], rides[-1].end) if rides else (shown["out"], "")
        rides.append(_ride(part, published, empty, before))
    vehicle_class = rides[0].start.rpartition("/")[2] if has_classes else None
    return Block(shown["block"], vehicle_class, tuple(rides), shown["in"])


def _ride(shown: Json, published: dict[str, Published], empty: int, before: str) -> Ride:
    """A trip of a block. It departs and ends as the program says, and what is beyond its arrival is layover."""
    name, departs, ends = shown["trip"], minute_of(shown["departs"]), minute_of(shown["ends"])
    if name not in published:
        raise DeskError(f"the program shows a trip that the workbench does not find in the files: {name}")
    trip = published[name]
    shift = departs - trip.departs
    arrives = trip.arrives + shift
    return Ride(name, trip.trip, before, empty, trip.start, departs, trip.end, arrives, ends - arrives, shift)
