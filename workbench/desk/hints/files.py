"""Files whose names are like those of the files that are read."""
from __future__ import annotations

import re
from pathlib import Path

from desk.hints.names import Known
from desk.rooms import FEED_FILES, SCRIPTS

READ = (*FEED_FILES, *SCRIPTS)
"""The files that a planner or an agency writes and the program reads."""

GTFS = frozenset("""
agency.txt stops.txt routes.txt fare_attributes.txt fare_rules.txt timeframes.txt rider_categories.txt fare_media.txt fare_products.txt
fare_leg_rules.txt fare_leg_join_rules.txt fare_transfer_rules.txt areas.txt stop_areas.txt networks.txt route_networks.txt shapes.txt
frequencies.txt transfers.txt pathways.txt levels.txt location_groups.txt location_group_stops.txt locations.geojson booking_rules.txt
translations.txt feed_info.txt attributions.txt""".split())
"""The files of an agency's feed that the program does not read."""

OWN = ("journal.db", "journal.db-journal", "journal.db-wal", "journal.db-shm", "blocks.csv", "prices.csv", "boards.csv", "trips_blocks.txt",
       "stop_times_blocks.txt")
"""The files of a town that the program writes, beside its script."""

OTHERS = GTFS | frozenset(OWN)
"""Files that may stand in a folder and are not those that are meant: the agency's others, and those that the program writes."""

COPY = re.compile(r"~|[._ -]?(?:\bbak|backup|old|orig|save|swp|tmp|copy( of)?|kopie|\([0-9]+\)|[0-9]+)(?![a-z])")
"""What the names of copies have beside the name of the file, in small letters."""

TEXTS = ("", ".csv", ".txt", ".toml", ".tsv")
"""The endings of files that a planner may take for one that is read."""

SHEETS = (".xlsx", ".xls", ".ods", ".numbers")
"""The endings of spreadsheets, from which such a file may have been meant to be made."""

NEAR = 0.87
"""How alike two names must be for a hint on a file."""


def like_names(folder: Path, name: str | None = None) -> dict[str, str]:
    """The files of a folder with names like those that are read, or like this one, each with the name that is read."""
    files = {path.name for path in folder.iterdir() if path.is_file()}
    wanted = READ if name is None else (name,)
    found = {}
    for file in sorted(files - OTHERS - set(READ)):
        meant = None if file.startswith(".") else _meant(file, wanted)
        if meant and not (meant in files and (_is_copy(file, meant) or is_sheet(file))):
            found[file] = meant
    return found


def is_sheet(file: str) -> bool:
    """Whether a file is a spreadsheet, by its name."""
    return file.lower().endswith(SHEETS)


def _meant(file: str, wanted: tuple[str, ...]) -> str | None:
    """The name that is read and is nearly this one."""
    if not (Path(file).suffix.lower() in (*TEXTS, *SHEETS) or file.startswith(wanted)):
        return None
    names = {_plain(name): name for name in wanted}
    plain = _plain(file)
    return names.get(plain) or names.get(Known(names).nearest(plain, NEAR) or "")


def _plain(file: str) -> str:
    """The letters of the name of a file up to its first point, without what that of a copy has."""
    return re.sub(r"[\W_]", "", COPY.sub("", file.lower()).partition(".")[0])


def _is_copy(file: str, name: str) -> bool:
    """Whether a file is a copy of another one, by its name: `desk.toml.bak`, `edits_old.csv`, `edits (1).csv`."""
    return file.lower() != COPY.sub("", file.lower()) and COPY.sub("", file.lower()).replace(" ", "") == name
