"""What is printed on a terminal: letters of a feed that a terminal would obey are printed as their escapes."""
from __future__ import annotations

import io
import sys
from contextlib import nullcontext, redirect_stdout
from typing import ContextManager, TextIO

from desk.errors import one_line


class Terminal(io.TextIOBase):
    """A terminal that is written to in lines of letters that it shows."""

    def __init__(self, terminal: TextIO) -> None:
        self.terminal = terminal

    def write(self, text: str) -> int:
        """Puts a text."""
        self.terminal.write("\n".join(map(one_line, text.split("\n"))))
        return len(text)

    def flush(self) -> None:
        """Puts what was written so far."""
        self.terminal.flush()

    def fileno(self) -> int:
        """The number of the terminal."""
        return self.terminal.fileno()


def shown_on_terminals() -> ContextManager[object]:
    """Where standard output is a terminal, what is put inside the block is what a terminal shows. Else it is put byte for byte."""
    return redirect_stdout(Terminal(sys.stdout)) if sys.stdout is not None and sys.stdout.isatty() else nullcontext()
