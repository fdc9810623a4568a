"""The errors that end a command. Each is printed as one line, `desk: MESSAGE`, and each of its hints as another one."""
from __future__ import annotations

import sys
from collections.abc import Sequence


class DeskError(Exception):
    """Something of the feed, the folder or the machine stops the command: status 1. Its hints say how it is mended."""

    status = 1

    def __init__(self, message: str, hints: Sequence[str] = ()) -> None:
        super().__init__(message)
        self.hints = tuple(hints)


class UsageError(DeskError):
    """The words of the command line are of no form: status 2."""

    status = 2


def one_line(text: str) -> str:
    """A text on one line: letters that a terminal does not show stand as their escapes."""
    return "".join(letter if letter.isprintable() else repr(letter)[1:-1] for letter in text)


def complain(message: str) -> None:
    """Puts an error on standard error, as one line."""
    print(f"desk: {one_line(message)}", file=sys.stderr)
