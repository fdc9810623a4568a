"""The proved program, which answers: it is run with words, and what it prints is returned byte for byte."""
from __future__ import annotations

import os
import subprocess
from collections.abc import Sequence
from dataclasses import dataclass
from pathlib import Path

from desk.errors import DeskError
from desk.files import reason

ROOT = Path(__file__).resolve().parents[2]
"""The folder of the repository, or of the archive."""


DONE, RECORDS_REFUSED, USAGE, FEED_REFUSED, NO, READ_FAULT, WRITE_FAULT, KEEPER_FAULT = range(8)
"""The statuses of a run: all done, all but refused records, words of no form, a refused feed, a `no`, and three faults."""


@dataclass(frozen=True, slots=True)
class Outcome:
    """What a run of the program has put, and its status."""

    status: int
    text: bytes
    errors: bytes


def program_path() -> Path:
    """The program: the one that the environment names as BLOCKDESK, else `./blockdesk` of the repository."""
    named = os.environ.get("BLOCKDESK")
    return Path(named) if named else ROOT / "blockdesk"


def run(words: Sequence[str | Path]) -> Outcome:
    """Runs the program with these words. A program that cannot be started is a DeskError."""
    program = program_path()
    try:
        ran = subprocess.run([program, *words], capture_output=True, stdin=subprocess.DEVNULL, check=False)
    except OSError as error:
        raise DeskError(f"the program {program} cannot be run: {reason(error)}") from error
    except ValueError as error:
        raise DeskError(f"the program cannot be run with these words: {error}") from error
    return Outcome(ran.returncode, ran.stdout, ran.stderr)
