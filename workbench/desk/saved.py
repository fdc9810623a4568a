"""`desk save` and `desk saved`: versions of script, plan and prices under names, and back.

A version is a folder `saved/NAME` of the town, where neither `kept` nor `blocks` writes. It is made whole and never written over.
"""
from __future__ import annotations

import argparse
import os
import re
import sys
import time
from pathlib import Path

from desk.answers import ask
from desk.errors import DeskError, UsageError
from desk.files import reason, read_bytes, sync_folder, write_whole
from desk.rooms import own_room
from desk.texts import Json, as_json
from desk.town import Town
from desk.written_texts import as_text, verdict_text

WORDS = {
    "save": "keep the script, the blocks and the prices of a town as a version under a name",
    "saved": "list the versions of a town, or restore one",
}

SCRIPT = "edits.csv"
FILES = (SCRIPT, "blocks.csv", "prices.csv")
VERDICT = "check.txt"
"""What `check` said of the version when it was saved."""

NAME = re.compile(r"[^\W_][\w.-]{0,63}")


def add_arguments(parser: argparse.ArgumentParser) -> None:
    """The words of `desk save` and of `desk saved`."""
    parser.add_argument("town", help="the folder")
    if parser.get_default("word") == "save":
        parser.add_argument("name", help="the name of the version: letters, digits, dots, hyphens and underscores")
    else:
        parser.add_argument("name", nargs="?", help="the version to put back (without it: the list of all)")
        parser.add_argument("--replace", action="store_true", help="put it over the files that are there")


def run(arguments: argparse.Namespace) -> int:
    """Saves a version, lists all, or puts one back."""
    town = Town(arguments.town)
    if arguments.word == "save":
        return save(town, arguments.name)
    return put_back(town, arguments.name, arguments.replace) if arguments.name else list_versions(town)


def version_folder(town: Town, name: str) -> Path:
    """The folder of a version. A name that could be no folder of its own is a UsageError."""
    if not NAME.fullmatch(name) or name.endswith("."):
        raise UsageError(f"{name!r} is no name of a version: letters, digits, dots, hyphens and underscores make one")
    return town.path("saved") / name


def save(town: Town, name: str) -> int:
    """Saves what stands in a town. The status is 1 where `check` says no to it."""
    folder = version_folder(town, name)
    if os.path.lexists(folder):
        raise DeskError(f"{name} is saved already: take another name, or remove the folder {folder}")
    files = standing(town)
    try:
        said = ask("check", town)
    except DeskError as error:
        raise DeskError(f"nothing is saved: {error}") from error
    if standing(town) != files:
        raise DeskError("nothing is saved: the files of the town changed meanwhile")
    make_version(folder, files | {VERDICT: as_text("check", said).encode("utf-8")})
    sys.stdout.write(f"saved {name}: {verdict_text(said)}\n")
    return 0 if said["verdict"] == "yes" else 1


def standing(town: Town) -> dict[str, bytes]:
    """The files of a version as they stand in a town. A script that is not there is one without records."""
    files = {SCRIPT: read_bytes(town.path(SCRIPT)) if town.has(SCRIPT) else b""}
    for name in FILES[1:]:
        if not town.has(name):
            raise DeskError(f"{name} is not in {town.folder}: `./desk blocks {town.folder}` writes it")
        files[name] = read_bytes(town.path(name))
    return files


def make_version(folder: Path, files: dict[str, bytes]) -> None:
    """Makes the folder of a version whole: under another name first, and then renamed."""
    try:
        folder.parent.mkdir(exist_ok=True)
        with own_room(folder.parent, ".version-") as room:
            room.chmod(0o755)
            for name, content in files.items():
                write_whole(room / name, content)
            os.rename(room, folder)
            sync_folder(folder.parent)
    except OSError as error:
        raise DeskError(f"{folder} cannot be written: {reason(error)}") from error


def verdict_of(path: Path) -> Json:
    """What `check` said of a version when it was saved."""
    return as_json("check", read_bytes(path / VERDICT))


def versions(town: Town) -> list[Path]:
    """The folders of the versions of a town, the oldest first."""
    room = town.path("saved")
    found = [path for path in room.iterdir() if (path / VERDICT).is_file()] if room.is_dir() else []
    found = [path for path in found if not path.name.startswith(".")]
    return sorted(found, key=lambda path: ((path / VERDICT).stat().st_mtime_ns, path.name))


def list_versions(town: Town) -> int:
    """Lists the versions with the time of each and what `check` said of it then. The status is 1 where that cannot be read."""
    if not town.folder.is_dir():
        raise DeskError(f"{town.folder} is no folder")
    status = 0
    for path in versions(town):
        when = time.strftime("%Y-%m-%d %H:%M", time.localtime((path / VERDICT).stat().st_mtime))
        try:
            said = verdict_text(verdict_of(path))
        except DeskError:
            said, status = f"its {VERDICT} is no text of `check`; `./desk saved {town.folder} {path.name}` asks anew", 1
        sys.stdout.write(f"{path.name}  {when}  {said}\n")
    return status


def put_back(town: Town, name: str, replace: bool) -> int:
    """Puts a version back. Where files that are there would change, they have to be given up by --replace."""
    folder = version_folder(town, name)
    if not folder.is_dir():
        known = ", ".join(path.name for path in versions(town))
        raise DeskError(f"{town.folder} has no version {name}" + (f": it has {known}" if known else ""))
    files = {file: read_bytes(folder / file) for file in FILES}
    there = {file: read_bytes(town.path(file)) for file in FILES if town.has(file)}
    changed = [file for file in FILES if there.get(file, b"" if file == SCRIPT else None) != files[file]]
    lost = [file for file in changed if file in there]
    if lost and not replace:
        raise DeskError(f"{', '.join(lost)} of {town.folder} would be other files: with --replace they are, "
                        f"and `./desk save {town.folder} NAME` saves them first")
    for file in changed:
        write_whole(town.path(file), files[file], replace=True)
    try:
        said = ask("check", town)
    except DeskError as error:
        raise DeskError(f"{name} stands, and no verdict is known: {error}") from error
    sys.stdout.write(f"{name} stands: {verdict_text(said)}\n")
    return 0 if said["verdict"] == "yes" else 1
