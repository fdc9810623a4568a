"""What the program answers of a town: the one place where the workbench makes something of its status and its text.

Both are read together and strictly. An answer is given where the text is of the forms of its command, no name in it hides where a
line or a name ends, and the status is the one with which the program puts such a text. All else is a DeskError: of a refused feed it
is a FeedRefused, whose words are whole, whatever names stand in them.
"""
from __future__ import annotations

import re
from pathlib import Path

from desk import program, texts
from desk.errors import DeskError
from desk.program import DONE, FEED_REFUSED, NO, RECORDS_REFUSED, Outcome
from desk.runs import folder_of_run
from desk.texts import Json
from desk.town import Town


class FeedRefused(DeskError):
    """The program refuses a feed. `said` is what it says behind `feed refused: `."""

    def __init__(self, folder: Path, said: str) -> None:
        super().__init__(f"{folder}: feed refused: {said}")
        self.said = said


def ask(command: str, town: Town, room: Path | None = None) -> Json:
    """What the program answers of a town, or of a room with its feed and other scripts. A refused feed is a FeedRefused."""
    with folder_of_run(command, town, room) as folder:
        outcome = program.run([command, folder])
        text = _text(command, town.folder, outcome)
        try:
            return read(command, outcome.status, text, folder, town)
        except DeskError as error:
            raise DeskError(str(error).replace(str(folder), str(town.folder))) from error


def read(command: str, status: int, text: bytes, folder: Path | str | None, town: Town | None = None) -> Json:
    """What a command says with this status and this text, of a folder of a feed, or of a room with the feed of a town."""
    said = texts.as_json(command, text, folder, town)
    if status != status_of(command, said):
        raise DeskError(f"{command} ended with status {status}, and its text is that of status {status_of(command, said)}")
    return said


def tell(command: str, folder: Path, room: Path | None = None) -> str:
    """The text of a command that writes, into a town or a room with its feed, where all is done but refused records.

    All else is a DeskError with the program's words.
    """
    with folder_of_run(command, Town(folder), room) as made:
        outcome = program.run([command, made])
    text = _text(command, folder, outcome).decode("utf-8", "replace")
    if outcome.status not in (DONE, RECORDS_REFUSED) or not text.endswith("\n"):
        raise DeskError(f"{command} of {folder} ended with status {outcome.status}: {text.rstrip()}")
    return text


def status_of(command: str, said: Json) -> int:
    """The status with which the program puts a text that says this."""
    if "feed_refused" in said:
        return FEED_REFUSED
    if said.get("verdict") == "no":
        return NO
    refused = bool(said.get("refused")) or not all(record["ok"] for record in said.get("records", []))
    return RECORDS_REFUSED if refused and command != "check" else DONE


def _text(command: str, folder: Path, outcome: Outcome) -> bytes:
    """The text of a run. A refusal is a FeedRefused. Where there is no text, what is on standard error is a DeskError."""
    refused = re.fullmatch(b"feed refused: (.+)\n", outcome.text, re.DOTALL) if outcome.status == FEED_REFUSED else None
    if refused:
        raise FeedRefused(folder, refused[1].decode("utf-8", "surrogateescape"))
    if not outcome.text:
        said = outcome.errors.decode("utf-8", "replace").strip().rpartition("\n")[2]
        raise DeskError(f"{command} of {folder} ended with status {outcome.status}: {said or 'it said nothing'}")
    return outcome.text
