"""`desk open`: the day in a browser of this machine, where edits are tried and written."""
from __future__ import annotations

import argparse
import os
import secrets
import sys
import webbrowser
from contextlib import suppress
from functools import partial
from pathlib import Path

from desk import program
from desk.edits import writing
from desk.errors import DeskError, UsageError
from desk.files import reason
from desk.open.session import Session
from desk.open.web import WebServer
from desk.page.period import PeriodView
from desk.period import TownPeriod, has_days
from desk.rooms import own_room

WORD = "open"
HELP = "the day in a browser of this machine: see it, change it, and the proof beside it"


def add_arguments(parser: argparse.ArgumentParser) -> None:
    """The words of `desk open`."""
    parser.add_argument("town", help="the folder of the feed")
    parser.add_argument("--planner", metavar="NAME", help="edit as this planner: into planner_edits.csv in place of edits.csv")
    parser.add_argument("--port", type=int, default=0, metavar="N", help="the port (without it: one that is free)")
    parser.add_argument("--browser", action="store_true", help="open the page in the browser too")


def run(arguments: argparse.Namespace) -> int:
    """Serves the page until it is stopped."""
    folder = Path(arguments.town)
    if arguments.planner == "":
        raise UsageError("the name of a planner is not empty")
    if not folder.is_dir():
        raise DeskError(f"{folder} is no folder")
    if not 0 <= arguments.port <= 65_535:
        raise UsageError("a port is a number from 0 to 65535")
    sessions = sessions_of(folder, arguments.planner)
    (sessions[0] if isinstance(sessions, list) else sessions).day()
    run_directly()
    try:
        server = WebServer(sessions, secrets.token_urlsafe(24), arguments.port)
    except OSError as error:
        raise DeskError(f"port {arguments.port} cannot be had: {reason(error)}") from error
    with server:
        serve(server, arguments.browser)
    return 0


def sessions_of(folder: Path, planner: str | None) -> Session | list[Session]:
    """The session of a town, or of a town with days one for each day type."""
    period = PeriodView(TownPeriod(folder)) if has_days(folder) else None
    for path in [town.folder for town in period.towns] if period else [folder]:
        with writing(path / "edits.csv"):
            pass
    if period is None:
        return Session(folder, planner)
    period.read_plans()
    return [Session(town.folder, planner, partial(period.beside, at)) for at, town in enumerate(period.towns)]


def run_directly() -> None:
    """Names the program itself, where the launcher tells its path.

    The launcher compares all sources in each run, and an edit is one.
    """
    if "BLOCKDESK" not in os.environ:
        told = program.run(["--program"])
        if told.status == 0:
            os.environ["BLOCKDESK"] = os.fsdecode(told.text).rstrip("\n")


def serve(server: WebServer, browser: bool) -> None:
    """Says where the page is, and answers until Ctrl+C. What is then being written is written to its end."""
    with own_room() as room:
        try:
            sys.stdout.write(f"open {server.address} in a browser of this machine; Ctrl+C ends\n")
            sys.stdout.flush()
            if browser:
                webbrowser.open(handed_over(server.address, room).as_uri())
            server.serve_forever()
        except KeyboardInterrupt:
            with suppress(OSError):  # Its terminal may be gone.
                sys.stdout.write("\n")
        for session in server.sessions:
            session.close()


def handed_over(address: str, room: Path) -> Path:
    """A file that leads to an address, and that no other user can read. All could read the words of the browser's command line."""
    path = room / "open.html"
    with open(os.open(path, os.O_WRONLY | os.O_CREAT | os.O_EXCL, 0o600), "w", encoding="utf-8") as file:
        file.write(f'<!DOCTYPE html>\n<meta charset="utf-8"><meta name="referrer" content="no-referrer"><title>blockdesk</title>\n'
                   f'<meta http-equiv="refresh" content="0; url={address}"><a href="{address}">the day</a>\n')
    return path
