"""The words of the proved program: its text and its status as they are, and hints on standard error where it refuses."""
from __future__ import annotations

import argparse
import json
import os
import subprocess
import sys
import threading
from collections.abc import Callable
from pathlib import Path
from typing import BinaryIO

from desk.answers import read
from desk.errors import DeskError, complain
from desk.files import reason
from desk.hints.runs import hints_before, hints_of, questions_before
from desk.program import DONE, RECORDS_REFUSED, WRITE_FAULT, program_path
from desk.runs import folder_of_run
from desk.town import Town, town_above

WORDS = {
    "deficits": "where and when vehicles are missing at each terminal",
    "fixed": "the blocks without empty running, first in, first out",
    "blocks": "the fewest vehicles with the fewest empty minutes; writes blocks.csv and prices.csv",
    "check": "whether blocks.csv and prices.csv prove that no other blocks are better",
    "write": "the agency's files again, with the blocks; writes trips_blocks.txt and stop_times_blocks.txt",
    "chart": "the deficits and the blocks, ten minutes a character",
    "chains": "chains of deadheads that save a vehicle each",
    "shifts": "shifts within the tolerances that save a vehicle each",
    "joined": "the deficits with the deadheads in them; writes boards.csv",
    "keep": "appends the accepted edits to the journal",
    "kept": "writes the journal over edits.csv",
    "planners": "the edits of several planners on one day",
    "audit": "whether the blocks of trips.txt can be run, and how far they are from the fewest",
    "sample": "a generated feed of N trips, scheduled and checked",
}


def add_arguments(parser: argparse.ArgumentParser) -> None:
    """The words behind that of the program, which judges them itself."""
    sample = parser.get_default("word") == "sample"
    metavar, text = ("N", "how many trips") if sample else ("TOWN", "the folder of the feed")
    parser.add_argument("words", nargs="*", metavar=metavar, help=text)
    parser.add_argument("--json", action="store_true", help="the text as JSON")
    if parser.get_default("word") == "keep":
        parser.add_argument("--yes", action="store_true", help="keep also what the journal has already, without a question")
    parser.epilog = "The text and the status are those of `./blockdesk`, which is proved. Hints on standard error are not."


def run(arguments: argparse.Namespace) -> int:
    """Runs the program, passes on what it puts, and says what helps. The status is that of the program."""
    command, words = arguments.word, arguments.words
    before = without_mistakes(hints_before, command, words)
    questions = [] if command == "keep" and arguments.yes else without_mistakes(questions_before, command, words)
    if questions and not is_agreed(questions):
        complain("nothing was kept. Take out what is kept, or give --yes.")
        return 1
    folder = Path(words[0]) if len(words) == 1 and command != "sample" else None
    if folder is not None and town_above(folder):
        with folder_of_run(command, Town(folder)) as room:
            status, text = ask([command, str(room)])
    else:
        status, text = ask([command, *words])
    if not put(as_shown(command, words, status, text) if arguments.json and text else text):
        return WRITE_FAULT
    for hint in (before if status in (DONE, RECORDS_REFUSED) else []) + without_mistakes(hints_of, command, words, status, text):
        complain(hint)
    return status


def is_agreed(questions: list[str]) -> bool:
    """Asks a planner whether a run is wanted. Where nobody answers it is not."""
    for question in questions:
        complain(question)
    print("desk: Do it? [y/N] ", end="", file=sys.stderr, flush=True)
    return sys.stdin is not None and sys.stdin.readline().strip().lower() in ("y", "yes")


def without_mistakes(find: Callable[..., list[str]], *found: object) -> list[str]:
    """The hints that a function finds. A mistake in it is a hint too, and ends nothing."""
    try:
        return find(*found)
    except Exception as error:  # pylint: disable=broad-except
        return [f"no hint could be made, by a mistake of the workbench itself: {type(error).__name__}: {error}"]


def ask(words: list[str]) -> tuple[int, str]:
    """Runs the program with these words: its status and its text. Its standard error is passed on while it runs."""
    program = program_path()
    try:
        running = subprocess.Popen([program, *words], stdin=subprocess.DEVNULL, stdout=subprocess.PIPE, stderr=subprocess.PIPE)
    except OSError as error:
        raise DeskError(f"the program {program} cannot be run: {reason(error)}") from error
    except ValueError as error:
        raise DeskError(f"the program cannot be run with these words: {error}") from error
    with running:
        passing = threading.Thread(target=pass_on, args=(running.stderr,))
        try:
            passing.start()
            text = running.stdout.read()
        except KeyboardInterrupt:
            running.terminate()
            raise
        finally:
            if passing.is_alive():
                passing.join()
    status = running.returncode
    return status if status >= 0 else 128 - status, text.decode("utf-8", "surrogateescape")


def pass_on(errors: BinaryIO) -> None:
    """Puts what comes on standard error, line by line."""
    for line in errors:
        sys.stderr.write(line.decode("utf-8", "backslashreplace"))
        sys.stderr.flush()


def as_shown(command: str, words: list[str], status: int, text: str) -> str:
    """The text of a command as JSON. A text that has no such form, or is not that of the status, is a DeskError."""
    folder = words[0] if len(words) == 1 and command != "sample" else None
    said = read(command, status, text.encode("utf-8", "surrogateescape"), folder)
    return json.dumps(said, ensure_ascii=False, indent=2) + "\n"


def put(text: str) -> bool:
    """Puts a text on standard output, byte for byte, and says whether that was possible."""
    try:
        sys.stdout.write(text)
        sys.stdout.flush()
        return True
    except OSError as error:
        complain(f"standard output cannot be written: {reason(error)}")
        os.dup2(os.open(os.devnull, os.O_WRONLY), sys.stdout.fileno())
        return False
