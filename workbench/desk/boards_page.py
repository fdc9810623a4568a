"""The running boards as a page of HTML: a list for the dispatcher, and then a board a sheet."""
from __future__ import annotations

import html
from collections.abc import Iterator

from desk.board_rows import Board, Row
from desk.lines import LineNames
from desk.plans import Plan, Ride
from desk.policy import checksum
from desk.times import format_minute, format_time
from desk.town import Town

SHEET = 236.0
"""The millimetres of a sheet that are left for the rows of a board."""

LETTERS = {"large": (4.6, 2.2, 62), "middle": (3.7, 1.3, 76), "fine": (3.4, 1.0, 84), "small": (3.1, 0.8, 95)}
"""The letters in which a board may be set: the millimetres of a line and those round a row, and the characters of a line."""

STYLE = """
@page { size: A4; margin: 11mm 11mm 14mm; @bottom-center { content: "sheet " counter(page) " of " counter(pages); font: 8pt sans-serif; } }
body { margin: 0; font: 10pt/1.3 "Liberation Sans", Arial, Helvetica, sans-serif; color: #000; }
section { break-before: page; }
section:first-of-type { break-before: auto; }
h1, h2 { margin: 0; font-size: 22pt; line-height: 1.1; }
header { display: flex; justify-content: space-between; align-items: flex-end; gap: 6mm; }
header { border-bottom: 1.2mm solid #000; padding-bottom: 1.5mm; }
header p { margin: 0; text-align: right; font-size: 9pt; line-height: 1.25; }
.ends { display: flex; flex-wrap: wrap; align-items: baseline; gap: 0 9mm; margin: 1.5mm 0 0; font-size: 9pt; }
.ends b { font-size: 13pt; }
table { width: 100%; border-collapse: collapse; }
thead { display: table-header-group; }
th { text-align: left; font-weight: normal; padding: 0; }
th[scope] { font-size: 8pt; border-bottom: .4mm solid #000; padding: 1mm 2mm .5mm 0; }
td { vertical-align: top; border-bottom: .15mm solid #888; padding: 1mm 2mm 1mm 0; }
tr { break-inside: avoid; }
.time { white-space: nowrap; font-weight: bold; font-variant-numeric: tabular-nums; }
.line { font-weight: bold; white-space: nowrap; }
.whole { white-space: nowrap; }
.points span { white-space: nowrap; margin-right: 3mm; }
.then { font-size: 85%; white-space: nowrap; }
.empty td { background: #e6e6e6; font-style: italic; print-color-adjust: exact; -webkit-print-color-adjust: exact; }
.name { font-size: 80%; color: #444; }
.middle { font-size: 8.5pt; line-height: 1.2; }
.middle td { padding: .55mm 2mm .55mm 0; }
.fine { font-size: 8pt; line-height: 1.16; }
.fine td { padding: .45mm 2mm .45mm 0; }
.small { font-size: 7.5pt; line-height: 1.12; }
.small td { padding: .3mm 2mm .3mm 0; }
.note { font-size: 8.5pt; margin: 2mm 0 0; }
@media screen {
  body { background: #d8d8d8; padding: 5mm; }
  section { background: #fff; max-width: 188mm; margin: 0 auto 6mm; padding: 11mm; overflow-x: auto; }
}
"""


def boards_page(town: Town, plan: Plan, boards: list[Board], lines: LineNames) -> str:
    """The page."""
    title = f"Running boards: {_named(town)}, {day_text(town)}"
    sections = [_summary(town, plan, boards, lines), *(_section(town, board, lines) for board in boards)]
    policy = f"default-src 'none'; style-src {checksum(STYLE)}; base-uri 'none'; form-action 'none'"
    return (f'<!DOCTYPE html>\n<html lang="en">\n<head><meta charset="utf-8">'
            f'<meta http-equiv="Content-Security-Policy" content="{policy}"><title>{escaped(title)}</title>\n'
            f"<style>{STYLE}</style></head>\n<body>\n" + "\n".join(sections) + "\n</body></html>\n")


def escaped(text: str) -> str:
    """A text as it stands in a page. Bytes that are not UTF-8 are shown as a mark."""
    return html.escape(text.encode("utf-8", "surrogateescape").decode("utf-8", "replace"))


def day_text(town: Town) -> str:
    """The day that is planned: its date, else its services."""
    date, services = town.date, town.settings.get("services")
    if date:
        return f"{date:%A} {date.day} {date:%B %Y}"
    return f"services {', '.join(services)}" if isinstance(services, list) else "all services"


def time_text(seconds: int) -> str:
    """A time as drivers read it: seconds only where there are some."""
    if seconds < 0:
        return f"{time_text(seconds + 86400)} the day before"
    return format_minute(seconds // 60) if seconds % 60 == 0 else format_time(seconds)


def hours_text(minutes: int) -> str:
    """A length of time in hours and minutes, as `7 h 05`."""
    return f"{minutes // 60} h {minutes % 60:02}"


def length_text(minutes: int) -> str:
    """A length of time: in minutes where it is short."""
    return f"{minutes} min" if minutes < 60 else hours_text(minutes)


def _named(town: Town) -> str:
    """What the town is called: its folder."""
    return town.title


def _heading(title: str, level: int, sides: list[str]) -> str:
    """The heading of a sheet: what it is, and at the other side its day."""
    rows = "<br>".join(escaped(side) for side in sides if side)
    return f"<header><h{level}>{escaped(title)}</h{level}><p>{rows}</p></header>"


def _sheet(size: str, heading: str, columns: str, rows: list[str]) -> str:
    """A sheet: its heading and its table. Both heads stand again where it goes on over another sheet."""
    names = columns.split("|")
    head = "".join(f'<th scope="col">{escaped(name)}</th>' for name in names)
    return (f'<section class="{size}"><table><thead><tr><th colspan="{len(names)}">{heading}</th></tr><tr>{head}</tr></thead>\n'
            "<tbody>\n" + "\n".join(rows) + "\n</tbody></table></section>")


def _summary(town: Town, plan: Plan, boards: list[Board], lines: LineNames) -> str:
    """The sheet of the dispatcher: the vehicles by the time at which they leave the depot."""
    notes = [f"The program says yes to these blocks: {plan.vehicles} vehicles, {plan.minutes} empty minutes.",
             "Hours from 24 on are those after midnight. These boards are drawn by the workbench, which is not proved."]
    if plan.refused:
        notes.append(f"Records of the script that are refused and change nothing: {plan.refused}.")
    if not town.has("depot.csv"):
        notes.append("There is no depot.csv, so a vehicle leaves the depot as its first trip departs, and is home as its last one ends.")
    classes = any(board.block.vehicle_class is not None for board in boards)
    columns = "Out of depot|Block|" + ("Class|" if classes else "") + "First trip|Line|From|Last trip ends|At|Home|Trips|Span"
    ordered = sorted(boards, key=lambda board: board.block.leaves)
    heading = (_heading("Vehicles of the day", 1, [_named(town), day_text(town)])
               + f'<p class="note">{escaped(" ".join(notes))}</p>')
    rows = [_summary_row(board, lines, classes) for board in ordered]
    return _sheet(size_of([(2, []) for _ in rows]), heading, columns, rows)


def _summary_row(board: Board, lines: LineNames, classes: bool) -> str:
    """The row of a vehicle in the list of the dispatcher."""
    block = board.block
    trips = [row for row in board.rows if row.ride]
    first, last = trips[0], trips[-1]
    cells = [("time", _minute_text(block.leaves)), ("line", block.name)] + ([("", block.vehicle_class or "")] if classes else [])
    cells += [("time", time_text(first.leaves)), ("line", lines.of(block.rides[0].trip) or "extra"), ("", first.start),
              ("time", time_text(last.arrives)), ("", last.end), ("time", _minute_text(block.returns)), ("", str(len(trips))),
              ("whole", hours_text(block.returns - block.leaves))]
    return "<tr>" + "".join(f'<td class="{kind}">{escaped(text)}</td>' for kind, text in cells) + "</tr>"


def _minute_text(minute: int) -> str:
    """A minute as drivers read it."""
    return time_text(60 * minute)


def size_of(rows: list[tuple[int, list[str]]]) -> str:
    """The largest letters in which rows of at least so many lines, with these texts, stand on a sheet; else the smallest."""
    for size, (line, around, width) in LETTERS.items():
        lines = sum(max(least, sum(-(-len(text) // width) for text in texts)) for least, texts in rows)
        if line * lines + around * len(rows) <= SHEET:
            return size
    return "small"


def _section(town: Town, board: Board, lines: LineNames) -> str:
    """The sheet of a vehicle."""
    block = board.block
    vehicles = f"vehicle class {block.vehicle_class or '(none)'}" if block.vehicle_class is not None else ""
    services = f"services {', '.join(board.services)}" if board.services else ""
    trips = sum(row.ride is not None for row in board.rows)
    ends = (f"<span>out of the depot <b>{escaped(_minute_text(block.leaves))}</b></span>"
            f"<span>home <b>{escaped(_minute_text(block.returns))}</b></span>"
            f"<span>trips <b>{trips}</b></span><span>span <b>{hours_text(block.returns - block.leaves)}</b></span>")
    heading = (_heading(f"Block {block.name}", 2, [_named(town), day_text(town), services, vehicles])
               + f'<div class="ends">{ends}</div>')
    shown = list(_with_stays(board))
    size = size_of([(len(stays), [_head_text(row), _between(row)]) for row, stays in shown])
    return _sheet(size, heading, "Leave|Line|Trip and timing points|Arrive|Then",
                  [_board_row(row, stays, lines) for row, stays in shown])


def _with_stays(board: Board) -> Iterator[tuple[Row, list[Row]]]:
    """Each row in which the vehicle moves, with the layover and the waiting that follow on it."""
    rows: list[tuple[Row, list[Row]]] = []
    for row in board.rows:
        if row.kind in ("layover", "wait"):
            rows[-1][1].append(row)
        else:
            rows.append((row, []))
    yield from rows


def _board_row(row: Row, stays: list[Row], lines: LineNames) -> str:
    """A row of a board. Layover and waiting stand in its last cell."""
    then = "<br>".join(escaped(f"{stay.kind} {length_text(stay.minutes)}, to {time_text(stay.arrives)}") for stay in stays)
    cells = _trip_cells(row, row.ride, lines) if row.ride else _empty_cells(row)
    kind = "trip" if row.ride else "empty"
    return (f'<tr class="{kind}"><td class="time">{escaped(time_text(row.leaves))}</td>{cells}'
            f'<td class="time">{escaped(time_text(row.arrives))}</td><td class="then">{then}</td></tr>')


def _empty_cells(row: Row) -> str:
    """The cells of empty running."""
    word = row.kind if row.kind in ("out", "home") else "empty"
    return (f'<td class="line">{word}</td>'
            f'<td>{escaped(row.start or "depot")} to {escaped(row.end or "depot")}, empty, {row.minutes} min</td>')


def _trip_cells(row: Row, ride: Ride, lines: LineNames) -> str:
    """The cells of a trip: its line, where it goes, and its timing points between its ends."""
    headsign, ends = _way(row, ride)
    moved = f", shifted {ride.shift:+} min" if ride.shift else ""
    points = "".join(f"<span>{escaped(point.stop)} <b>{escaped(_point_text(point.arrives, point.departs))}</b></span> "
                     for point in row.points[1:-1])
    return (f'<td class="line">{escaped(lines.of(ride.trip) or "extra")}</td><td><b>{escaped(headsign)}</b> '
            f'{escaped(ends)} <span class="name">{escaped(ride.name + moved)}</span>'
            + (f'<div class="points">{points}</div>' if points else "") + "</td>")


def _way(row: Row, ride: Ride) -> tuple[str, str]:
    """Where a trip goes by its headsign, and between which stops."""
    headsign = (ride.trip.headsign if ride.trip else "") or row.end
    return headsign, f"from {row.start}" + ("" if headsign == row.end else f" to {row.end}")


def _head_text(row: Row) -> str:
    """What stands of a row above its timing points, as it takes room."""
    return " ".join((*_way(row, row.ride), row.ride.name)) if row.ride else f"{row.start} to {row.end}"


def _between(row: Row) -> str:
    """The timing points between the ends of a trip, as they take room."""
    return "   ".join(f"{point.stop} {_point_text(point.arrives, point.departs)}" for point in row.points[1:-1])


def _point_text(arrives: int | None, departs: int | None) -> str:
    """The times at a timing point: one, or where the vehicle stands there both."""
    times = [time_text(time) for time in (arrives, departs) if time is not None]
    return " to ".join(dict.fromkeys(times))
