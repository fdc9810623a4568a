"""What was read of a text of the program, written as that text again."""
from __future__ import annotations

from typing import Any

from desk.records import record_text

Json = dict[str, Any]


def as_text(command: str, parsed: Json) -> str:
    """The text of a command that `texts.as_json` has read."""
    if "feed_refused" in parsed:
        return f"feed refused: {parsed['feed_refused']}\n"
    refused = [line_of_record("record", record) for record in parsed.get("refused", [])]
    return "".join(line + "\n" for line in [*refused, *WRITERS[command](parsed)])


def line_of_record(word: str, record: Json) -> str:
    """The line of a record that is refused, or done; the numbers after it stand behind that where it has them."""
    if record.get("ok"):
        return f"{word} {record['record']}: ok" + (f", {cost_text(record)}" if "fixed" in record else "")
    trip = "" if record["trip"] is None else f", {record['trip']}"
    return f"{word} {record['record']}: refused{trip}: {record['why']}"


def cost_text(numbers: Json) -> str:
    """The three numbers of a timetable."""
    return f"fixed {numbers['fixed']}, vehicles {numbers['vehicles']}, minutes {numbers['minutes']}"


def vehicles_text(numbers: Json) -> str:
    """The two numbers of a plan."""
    return f"vehicles {numbers['vehicles']}, minutes {numbers['minutes']}"


def deficits_lines(parsed: Json) -> list[str]:
    """The lines of `deficits`."""
    return [*place_lines(parsed), f"sum {parsed['sum']}"]


def joined_lines(parsed: Json) -> list[str]:
    """The lines of `joined`."""
    return [*place_lines(parsed), f"sum {parsed['sum']}, blocks {parsed['blocks']}"]


def place_lines(parsed: Json) -> list[str]:
    """The lines of places and of their steps."""
    lines = []
    for place in parsed["places"]:
        was = f", was {place['was']}" if "was" in place else ""
        lines.append(f"{place['place']} max {place['max']} at {place['at']}{was}")
        lines += [f" {step['at']} {step['deficit']}" for step in place["steps"]]
    return lines


def fixed_lines(parsed: Json) -> list[str]:
    """The lines of `fixed`."""
    return [*(block_line(block) for block in parsed["blocks"]), f"fixed {parsed['fixed']}"]


def block_line(block: Json) -> str:
    """The line of a block."""
    parts = [f"out {block['out']}"] if block["out"] else []
    for trip in block["trips"]:
        parts += [f"dh {trip['deadhead']}"] if trip["deadhead"] else []
        parts.append(f"{trip['trip']} {trip['departs']} {trip['ends']}")
    parts += [f"in {block['in']}"] if block["in"] else []
    return f"{block['block']}: {'; '.join(parts)}"


def plans_lines(parsed: Json) -> list[str]:
    """The lines of `blocks`."""
    lines = []
    for record in parsed["records"]:
        lines.append(line_of_record("record", record))
        if plan := record.get("plan"):
            lines += [f" {block_line(block)}" for block in plan["blocks"]]
            lines += [f" price {price['trip']} {price['leave']} {price['enter']}" for price in plan["prices"]]
    return [*lines, cost_text(parsed)]


def audit_lines(parsed: Json) -> list[str]:
    """The lines of `audit`."""
    if parsed["verdict"] == "no":
        return [*(misfit_line(misfit) for misfit in parsed["misfits"]), f"no: {len(parsed['misfits'])} pairs do not fit"]
    lines = [vehicles_text(parsed), f"least {vehicles_text(parsed['least'])}"]
    for word, number in parsed.get("above", {}).items():
        return [*lines, f"above by {number} {word}"]
    return [*lines, "least"]


def misfit_line(misfit: Json) -> str:
    """The line of a pair that does not fit."""
    return f"block {misfit['block']}: {misfit['first']} to {misfit['second']} {why_text(misfit)}"


def why_text(misfit: Json) -> str:
    """Why a pair does not fit."""
    if misfit["forbidden"]:
        return "forbidden"
    return "no way" if misfit["short"] is None else f"short by {misfit['short']}"


def chains_lines(parsed: Json) -> list[str]:
    """The lines of `chains`."""
    lines = []
    for chain in parsed["chains"]:
        parts = [f"{part['from']} {part['leaves']} to {part['to']} {part['arrives']}" for part in chain["deadheads"]]
        lines.append(f"chain {chain['chain']}: {'; '.join(parts)}, sum {chain['sum']}")
    return [*lines, f"chains {len(parsed['chains'])}, sum {parsed['sum']}"]


def shifts_lines(parsed: Json) -> list[str]:
    """The lines of `shifts`."""
    edits = [edit_text(shift | {"edit": "shift"}) for shift in parsed["shifts"]]
    return [*edits, f"shifts {len(parsed['shifts'])}, sum {parsed['sum']}"]


def edit_text(edit: Json) -> str:
    """The record of an edit, without the end of its line."""
    fields = [edit["edit"], edit["trip"]]
    if edit["edit"] == "shift":
        fields.append(f"{edit['shift']:+}")
    if edit["edit"] == "extra":
        fields += [edit[name] for name in ("from", "to", "departs", "arrives")]
    return record_text(fields).removesuffix("\n")


def planners_lines(parsed: Json) -> list[str]:
    """The lines of `planners`."""
    lines = [line_of_record("planner", record) for record in parsed["records"]]
    lines += [f" {edit['planner']}: {edit_text(edit)}" for edit in parsed["standing"]]
    return [*lines, cost_text(parsed)]


def check_lines(parsed: Json) -> list[str]:
    """The line of `check`."""
    return [verdict_text(parsed)]


def verdict_text(parsed: Json) -> str:
    """The verdict of `check` on a plan."""
    return f"no: {parsed['reason']}" if parsed["verdict"] == "no" else f"yes, {vehicles_text(parsed)}"


WRITERS = {
    "audit": audit_lines, "blocks": plans_lines, "chains": chains_lines, "check": check_lines, "deficits": deficits_lines,
    "fixed": fixed_lines, "joined": joined_lines, "planners": planners_lines, "shifts": shifts_lines}
"""What writes the lines of each command, but those of refused records, which stand before them."""
