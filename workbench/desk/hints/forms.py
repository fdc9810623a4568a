"""What the program reads and writes, and the forms of its fields and keys, in the words of a hint."""
from __future__ import annotations

from desk.rooms import FEED_FILES

COMMANDS = ("deficits", "fixed", "blocks", "check", "write", "chart", "chains", "shifts", "joined", "keep", "kept", "planners", "audit")
"""The words of the program that are followed by a folder."""

READ = {command: (*FEED_FILES, "edits.csv") for command in COMMANDS if command != "kept"} | {"kept": ()}
READ["check"] += ("blocks.csv", "prices.csv")
READ["planners"] += ("planner_edits.csv",)
"""The files that each command reads, in their order."""

WRITTEN = {"blocks": ("blocks.csv", "prices.csv"), "write": ("trips_blocks.txt", "stop_times_blocks.txt"),
           "joined": ("boards.csv",), "kept": ("edits.csv",)}
"""The files that a command writes, in their order."""

JOURNAL = "journal.db"
"""The journal, which `keep` and `kept` alone open."""

COLUMNS = {
    "terminals.csv": ("stop_id", "terminal"),
    "tolerances.csv": ("trip_id", "early", "late"),
    "calendar.txt": ("service_id", "monday", "tuesday", "wednesday", "thursday", "friday", "saturday", "sunday",
                     "start_date", "end_date"),
    "calendar_dates.txt": ("service_id", "date", "exception_type"),
    "trips.txt": ("service_id", "trip_id"),
    "stop_times.txt": ("trip_id", "arrival_time", "departure_time", "stop_id", "stop_sequence"),
    "deadheads.csv": ("from", "to", "minutes"),
    "depot.csv": ("terminal", "pull_out", "pull_in"),
    "pairs.csv": ("before", "after", "rule"),
    "blocks.csv": ("block_id", "trip_id", "deadhead"),
    "prices.csv": ("trip_id", "leave", "enter"),
}
"""The columns that a file must have."""

DIFFERENT = {
    "terminals.csv": ("stop_id",), "tolerances.csv": ("trip_id",), "calendar.txt": ("service_id",),
    "calendar_dates.txt": ("service_id", "date"), "trips.txt": ("trip_id",), "deadheads.csv": ("from", "to"),
    "depot.csv": ("terminal",), "pairs.csv": ("before", "after")}
"""The columns in which no two records of a file may be the same."""

_TIME = "a time with seconds, `06:30:00`, up to `99:59:59`"
_DATE = "eight digits of a date, `20260907`"
_MARK = "`0` or `1`"
_PULL = "a whole number of minutes from 0 to 1440, in digits alone"
_TOLERANCE = "a whole number of minutes from 0 to 60, in digits alone"

FIELDS = {
    "arrival_time": _TIME, "departure_time": _TIME, "stop_sequence": "a whole number of at most nine digits",
    "start_date": _DATE, "end_date": _DATE, "date": _DATE, "exception_type": "`1` for a service that runs, or `2` for one that does not",
    "minutes": "a whole number of minutes from 1 to 1440, in digits alone", "pull_out": _PULL, "pull_in": _PULL,
    "early": _TOLERANCE, "late": _TOLERANCE, "rule": "`keep` or `never`",
    **dict.fromkeys(COLUMNS["calendar.txt"][1:8], _MARK)}
"""What a field of a column must be."""

KEYS = {
    "services": '`services = ["weekday", "school"]`, a list of texts in double quotes',
    "date": '`date = "20260907"`, eight digits in double quotes, without hyphens and spaces',
    "classes": '`[classes]` and below it `line_7 = "big"`, a class of 1 to 16 bytes without `/` for a route',
    "layover": "`layover = 5`, a whole number from 0 to 240",
    "layovers": '`[layovers]` and below it `"Market Square" = 3`, a whole number from 0 to 240 for a terminal',
    "early": "`early = 0`, a whole number from 0 to 60",
    "late": "`late = 2`, a whole number from 0 to 60",
    "block_prefix": '`block_prefix = "V"`, a text of at most 32 bytes',
    "block_names": '`block_names = "numbered"` or `block_names = "stated"`',
    "prefer": '`prefer = ["stated", "line", "waiting"]`, these in any order, or some of them, or none'}
"""The keys of `desk.toml`, and the form of each."""

NAMED = ("numbered", "stated")
"""How blocks may be named."""

PREFERRED = ("stated", "line", "waiting")
"""What may be preferred."""
