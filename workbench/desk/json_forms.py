"""What `--json` prints: for each command the keys of its answer and their values. `texts` makes those of the program's texts.

An answer is an object with exactly these keys. A minute of the day is a text, `HH:MM`, before midnight with a minus. A length of
time is a number of minutes.

A text of the program is refused where it is of no known form, where its status is that of other texts, and where it can be read in
two ways. It can be so with one of these names:

- a name with a line end
- a trip or place with `; ` in `fixed`, `blocks` and `chains`
- more than one `: ` or ` to ` in a line of `audit`
- a place with ` HH:MM to ` in `chains`
- a trip with `1: `, where one block alone leaves open which part is its name
"""
from typing import Any, Literal, NotRequired, TypedDict

FeedRefused = TypedDict("FeedRefused", {"feed_refused": str})
"""The feed is refused, with this text."""

Refused = TypedDict("Refused", {"record": int, "trip": str | None, "why": str})
"""A refused record of the script: its number from 1, the trip that it names, and the text of the refusal."""

Step = TypedDict("Step", {"at": str, "deficit": int})
"""A minute at which the deficit of a place changes, and its value from then on."""

Place = TypedDict("Place", {"place": str, "max": int, "at": str, "steps": list[Step]})
"""A place with its maximum, and the first minute that has it."""

JoinedPlace = TypedDict("JoinedPlace", {"place": str, "max": int, "at": str, "was": int, "steps": list[Step]})
"""A place with the deadheads as trips. `was` is the maximum of the trips alone."""

Deficits = TypedDict("Deficits", {"refused": list[Refused], "places": list[Place], "sum": int})
"""The deficits, and the sum of their maxima."""

Joined = TypedDict("Joined", {"refused": list[Refused], "places": list[JoinedPlace], "sum": int, "blocks": int})
"""The joined deficits, the sum of their maxima, and the number of blocks, which is more only with rules of pairs."""

Trip = TypedDict("Trip", {"trip": str, "deadhead": int, "departs": str, "ends": str})
"""A trip in a block, with the empty minutes from the trip before it. It ends after its layover."""

Block = TypedDict("Block", {"block": str, "out": int, "trips": list[Trip], "in": int})
"""A block with its pull-out and its pull-in. What the text leaves out is 0."""

Fixed = TypedDict("Fixed", {"refused": list[Refused], "blocks": list[Block], "fixed": int})
"""The blocks without deadheads, and their number."""

Price = TypedDict("Price", {"trip": str, "leave": int, "enter": int})
"""The two dual prices of a trip."""

Shown = TypedDict("Shown", {"blocks": list[Block], "prices": list[Price]})
"""The plan at a `show`."""

Accepted = TypedDict("Accepted", {"record": int, "ok": Literal[True], "fixed": int, "vehicles": int, "minutes": int})
"""An accepted record, with the numbers after it."""

AcceptedShow = TypedDict("AcceptedShow", {"record": int, "ok": Literal[True], "fixed": int, "vehicles": int, "minutes": int,
                                          "plan": Shown})
"""A show of a plan that has blocks."""

NotAccepted = TypedDict("NotAccepted", {"record": int, "ok": Literal[False], "trip": str | None, "why": str})
"""A refused record, among those that are accepted."""

Blocks = TypedDict("Blocks", {"records": list[Accepted | AcceptedShow | NotAccepted], "fixed": int, "vehicles": int, "minutes": int})
"""All records of the script, and the numbers after them."""

Yes = TypedDict("Yes", {"refused": list[Refused], "verdict": Literal["yes"], "vehicles": int, "minutes": int})
"""The files prove that no other blocks are better."""

No = TypedDict("No", {"refused": list[Refused], "verdict": Literal["no"], "reason": str})
"""They do not, for the first reason."""

Deadhead = TypedDict("Deadhead", {"from": str, "leaves": str, "to": str, "arrives": str})
"""A deadhead of a chain."""

Chain = TypedDict("Chain", {"chain": int, "deadheads": list[Deadhead], "sum": int})
"""A chain, and the sum of the maxima with it."""

Chains = TypedDict("Chains", {"refused": list[Refused], "chains": list[Chain], "sum": int})
"""The chains, and the sum after all."""

Shift = TypedDict("Shift", {"trip": str, "shift": int})
"""A shift by so many minutes; earlier is below 0."""

Shifts = TypedDict("Shifts", {"refused": list[Refused], "shifts": list[Shift], "sum": int})
"""The shifts, and the sum after all."""

Standing = TypedDict("Standing", {"planner": str, "edit": Literal["cancel", "restore"], "trip": str})
"""A planner's edit in force."""

StandingShift = TypedDict("StandingShift", {"planner": str, "edit": Literal["shift"], "trip": str, "shift": int})
"""A planner's shift in force."""

StandingExtra = TypedDict("StandingExtra", {"planner": str, "edit": Literal["extra"], "trip": str, "from": str, "to": str,
                                            "departs": str, "arrives": str})
"""A planner's extra trip in force."""

Done = TypedDict("Done", {"record": int, "ok": Literal[True]})
"""An accepted record of a planner."""

Planners = TypedDict("Planners", {"refused": list[Refused], "records": list[Done | NotAccepted],
                                  "standing": list[Standing | StandingShift | StandingExtra],
                                  "fixed": int, "vehicles": int, "minutes": int})
"""The records of the planners, the edits in force, and the numbers with them."""

Misfit = TypedDict("Misfit", {"block": str, "first": str, "second": str, "short": int | None,
                              "forbidden": Literal[True, False]})
"""Two trips of a stated block that do not fit: by how many minutes, or null where no way leads there or `pairs.csv` forbids them."""

Misfits = TypedDict("Misfits", {"refused": list[Refused], "verdict": Literal["no"], "misfits": list[Misfit]})
"""The stated blocks cannot be run."""

Plan = TypedDict("Plan", {"vehicles": int, "minutes": int})
"""The vehicles and the empty minutes of a plan."""

Least = TypedDict("Least", {"refused": list[Refused], "verdict": Literal["least"], "vehicles": int, "minutes": int, "least": Plan})
"""The stated blocks are least."""

AboveVehicles = TypedDict("AboveVehicles", {"vehicles": int})
"""By how many vehicles stated blocks are above."""

AboveMinutes = TypedDict("AboveMinutes", {"minutes": int})
"""By how many minutes stated blocks are above, with as few vehicles."""

Above = TypedDict("Above", {"refused": list[Refused], "verdict": Literal["above"], "vehicles": int, "minutes": int, "least": Plan,
                            "above": AboveVehicles | AboveMinutes})
"""The stated blocks are above the least."""

Note = TypedDict("Note", {"kind": str, "file": str, "record": int | None, "found": str, "do": str})
"""A note: where it is, what was found, and what to do. A refusal of the program is the first one, of kind `refused`."""

Notes = TypedDict("Notes", {"notes": list[Note]})
"""All notes. Those on whole minutes are one, and each of them with `--minutes`."""

Side = TypedDict("Side", {"plan": str, "check": Yes | No, "blocks": int, "trips": int, "neighbours": int, "stated_neighbours": int,
                          "kept_neighbours": int, "line_changes": int, "waiting": int})
"""One of two plans: its name, what `check` says of it, and how many blocks and trips it has. The rest is as in the figures."""

Pair = TypedDict("Pair", {"first": str, "second": str})
"""A block of the first plan, and the one that it is in the second."""

TripNow = TypedDict("TripNow", {"trip": str, "second": str | None})
"""A trip, and its block in the second plan, if it runs there."""

TripBefore = TypedDict("TripBefore", {"trip": str, "first": str | None})
"""A trip, and its block in the first plan, if it ran there."""

Changed = TypedDict("Changed", {"first": str, "second": str, "leaves": list[str], "ends": list[str], "lost": list[TripNow],
                                "gained": list[TripBefore], "moved": list[str]})
"""A block that has changed: the two minutes in which it leaves and ends, trips that it has no more, new ones, and shifted ones."""

Gone = TypedDict("Gone", {"block": str, "trips": list[TripNow]})
"""A block of the first plan that the second has not."""

New = TypedDict("New", {"block": str, "leaves": str, "ends": str, "trips": list[TripBefore]})
"""A block of the second plan that the first had not."""

OtherBlock = TypedDict("OtherBlock", {"trip": str, "first": str, "second": str})
"""A trip that is in another block."""

Passengers = TypedDict("Passengers", {"trip": str, "line": str, "departs": str, "from": str, "to": str})
"""A trip as passengers know it."""

Moved = TypedDict("Moved", {"trip": str, "line": str, "departs": str, "from": str, "to": str, "minutes": int, "departed": str})
"""A shifted trip, by how many minutes, and when it departed before."""

TripsOfBoth = TypedDict("TripsOfBoth", {"both": int, "in_other_blocks": list[OtherBlock], "other_neighbours": int,
                                        "other_names": int, "cancelled": list[Passengers], "new": list[Passengers], "moved": list[Moved]})
"""How many trips run in both plans, those that differ, and how many have other neighbours or are in blocks of other names."""

Compare = TypedDict("Compare", {"first": Side, "second": Side, "trips": TripsOfBoth, "same": list[Pair], "changed": list[Changed],
                                "gone": list[Gone], "new": list[New]})
"""Two plans of one day side by side."""

CompareDays = TypedDict("CompareDays", {"first": Side, "second": Side, "trips": TripsOfBoth, "same": list[Pair],
                                        "changed": list[Changed], "gone": list[Gone], "new": list[New], "days": list[str]})
"""Two plans of two days side by side, with both days."""

DayTypes = TypedDict("DayTypes", {"name": str, "folders": list[str], "dates": list[int], "first": Side, "second": Side,
                                  "trips": TripsOfBoth, "same": list[Pair], "changed": list[Changed], "gone": list[Gone],
                                  "new": list[New], "days": NotRequired[list[str]]})
"""A day type in two periods: its folder and how many dates it has in each, and its two plans. `days` is there where they differ."""

ComparePeriods = TypedDict("ComparePeriods", {"first": str, "second": str, "pairs": list[DayTypes], "gone": list[str],
                                              "new": list[str]})
"""Two towns with days side by side. `gone` and `new` are day types of one of them alone."""

Day = TypedDict("Day", {"name": str, "folder": str | None, "trips": int, "services": list[str], "dates": list[str]})
"""A day type, and the folder that plans it, if there is one."""

Days = TypedDict("Days", {"days": list[Day], "without": list[str], "troubles": list[str]})
"""The day types of a period, the dates without trips, and what is to be mended."""

Fleet = TypedDict("Fleet", {"vehicles": int, "on": str})
"""The most vehicles over all day types, and the day type that needs them."""

TodayNot = TypedDict("TodayNot", {"verdict": Literal["no"]})
"""The stated blocks of a day type cannot be run."""

TodayLeast = TypedDict("TodayLeast", {"verdict": Literal["least"], "vehicles": int, "minutes": int, "least": Plan})
"""They are least."""

TodayAbove = TypedDict("TodayAbove", {"verdict": Literal["above"], "vehicles": int, "minutes": int, "least": Plan,
                                      "above": AboveVehicles | AboveMinutes})
"""They are above the least."""

Proved = TypedDict("Proved", {"verdict": Literal["yes"], "vehicles": int, "minutes": int})
"""What `check` says of the plan of a day type."""

NotProved = TypedDict("NotProved", {"verdict": Literal["no"], "reason": str})
"""It says no, for the first reason."""

SharedTrips = TypedDict("SharedTrips", {"pairs": int, "other_pairs": int, "trips": int, "other_names": int})
"""Trips that a day type shares with those before it: their pairs of neighbours, how many are none in its plan, the trips, and how many
are in blocks of other names."""

Planned = TypedDict("Planned", {"folder": str, "name": str, "dates": int, "trips": int, "audit": TodayNot | TodayLeast | TodayAbove,
                                "misfits": int, "misfit": Misfit | None, "least": Plan, "check": Proved | NotProved, "refused": list[str], "shared": SharedTrips | None})
"""A day type that is planned: today's blocks with the first misfit, the plan, and the lines of refused records."""

NotPlanned = TypedDict("NotPlanned", {"folder": str, "name": str, "dates": int, "error": str, "hints": list[str]})
"""A day type without a plan: why there is none, and what to do."""

PlannedTown = TypedDict("PlannedTown", {"town": str, "fleet": Fleet | None, "today": Fleet | None, "troubles": list[str],
                                        "days": list[Planned | NotPlanned]})
"""A town: its fleet by the plan and today, what is to be mended in its folders, and its day types."""

Towns = TypedDict("Towns", {"towns": list[PlannedTown]})
"""The towns that are planned. The plan of a day type is in `plan.json` of its folder too."""

Lengths = TypedDict("Lengths", {"shortest": int, "shortest_block": str, "median": int | float, "mean": float, "longest": int,
                                "longest_block": str})
"""How long blocks are."""

OfLine = TypedDict("OfLine", {"line": str, "trips": int, "platform": int, "layover": int, "empty": int, "waiting": int})
"""The minutes of a line."""

OfBlock = TypedDict("OfBlock", {"block": str, "leaves": str, "returns": str, "trips": int, "platform": int, "layover": int,
                                "waiting": int, "empty": int, "span": int, "length": int})
"""The minutes of a block. `span` is from the depot to the depot, and `length` is that without the waiting."""

InService = TypedDict("InService", {"from": str, "vehicles": int})
"""A quarter of an hour, and the most vehicles that are away from the depot in it."""

Wait = TypedDict("Wait", {"block": str, "place": str, "from": str, "to": str, "minutes": int, "trip": str})
"""A wait of a vehicle before a trip."""

AtPlace = TypedDict("AtPlace", {"place": str, "minutes": int, "waits": int})
"""All waits at a place."""

Figures = TypedDict("Figures", {
    "vehicles": int, "empty": int, "trips": int, "platform": int, "layover": int, "waiting": int, "span": int, "empty_share": float,
    "neighbours": int, "stated_neighbours": int, "kept_neighbours": int, "line_changes": int, "spans": Lengths | None,
    "lengths": Lengths | None, "lines": list[OfLine], "blocks": list[OfBlock],
    "in_service": list[InService], "waits": list[Wait], "places": list[AtPlace]})
"""The minutes of a plan in all, by lines, blocks and places. `empty_share` is of the minutes on trips and empty ones together. Of
the `neighbours` in its blocks `kept_neighbours` are among the `stated_neighbours` of the feed; `line_changes` are of two lines."""

RuleCost = TypedDict("RuleCost", {"record": int, "before": str, "after": str, "rule": Literal["keep", "never"], "without": Plan})
"""A rule of `pairs.csv`, and the least plan with all rules but this one."""

Rules = TypedDict("Rules", {"all": Plan, "none": Plan, "rules": list[RuleCost]})
"""The least plans with all rules, with none, and without each one."""

FORMS: dict[str, Any] = {
    "deficits": Deficits, "fixed": Fixed, "blocks": Blocks, "check": Yes | No, "chains": Chains, "shifts": Shifts, "joined": Joined,
    "planners": Planners, "audit": Misfits | Least | Above, "notes": Notes, "compare": Compare | CompareDays | ComparePeriods,
    "days": Days, "plan": Towns, "figures": Figures, "rules": Rules}
"""The answers of each command as JSON. Those of the program may also answer with `FeedRefused`."""
