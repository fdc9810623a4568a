"""`desk boards`: a running board for each vehicle, as a page to print or as records."""
from __future__ import annotations

import argparse
import sys
from pathlib import Path

from desk.board_rows import Board, clock, make_boards
from desk.boards_page import boards_page
from desk.errors import UsageError
from desk.files import refuse_if_there, write_whole
from desk.lines import LineNames
from desk.plans import read_plan
from desk.records import record_text
from desk.town import Town

WORD = "boards"
HELP = "a running board for each vehicle, as a page to print or with --csv as records"

COLUMNS = ("block_id", "kind", "trip_id", "line", "headsign", "from", "leaves", "to", "arrives", "minutes")
"""What a vehicle does, in the order of the day. A kind is `out`, `trip`, `point` (a timing point of the trip before it), `layover`,
`empty`, `wait` or `home`. A time is `HH:MM:SS`, before midnight with a minus. A trip has its published times, with its shift."""


def add_arguments(parser: argparse.ArgumentParser) -> None:
    """The words of `desk boards`."""
    parser.add_argument("town", help="the folder, in which `blocks` and `joined` have written their files")
    parser.add_argument("-o", "--output", type=Path, metavar="FILE", help="where to write (without it: to standard output)")
    parser.add_argument("--csv", action="store_true", help="records in place of a page")
    parser.add_argument("--ends", action="store_true", help="only the first and the last stop of a trip, no timing points between")
    parser.add_argument("--replace", action="store_true", help="write over a file that is there")


def run(arguments: argparse.Namespace) -> int:
    """Writes the boards."""
    town = Town(arguments.town)
    if arguments.output:
        own = {town.path(name).resolve() for name in ("blocks.csv", "prices.csv", "boards.csv")}
        if arguments.output.resolve() in own:
            raise UsageError(f"{arguments.output} is a file of the program: the boards want another name")
        refuse_if_there(arguments.output, arguments.replace)
    plan = read_plan(town)
    boards, lines = make_boards(town, plan, arguments.ends), LineNames(town)
    text = boards_csv(boards, lines) if arguments.csv else boards_page(town, plan, boards, lines)
    if arguments.output:
        write_whole(arguments.output, text, replace=arguments.replace)
    else:
        sys.stdout.write(text)
    return 0


def boards_csv(boards: list[Board], lines: LineNames) -> str:
    """The boards as records: a row each, and behind a trip its timing points."""
    records = [record_text(COLUMNS)]
    for board in boards:
        for row in board.rows:
            ride = row.ride
            of_trip = (ride.name, lines.of(ride.trip), ride.trip.headsign if ride.trip else "") if ride else ("", "", "")
            records.append(record_text((board.block.name, row.kind, *of_trip, row.start, clock(row.leaves), row.end,
                                        clock(row.arrives), str(row.minutes))))
            for point in row.points:
                times = ["" if time is None else clock(time) for time in (point.arrives, point.departs)]
                records.append(record_text((board.block.name, "point", *of_trip, point.stop, times[1], point.stop, times[0], "")))
    return "".join(records)
