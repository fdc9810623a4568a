"""The command line: one word a command, its options, its help, and its status."""
from __future__ import annotations

import argparse
import io
import os
import re
import signal
import sys
from collections.abc import Mapping, Sequence
from pathlib import Path
from types import ModuleType
from typing import Any, NoReturn, TextIO

from desk.errors import DeskError, UsageError, complain
from desk.files import reason
from desk.leftovers import mend
from desk.pipes import refuse_pipes
from desk.terminal import shown_on_terminals
from desk.town import town_above
from desk.versions import version
from desk import adopt, boards, compare, days, figures, new, notes, page, part, plan, program_words, publish, rules, saved, take
from desk import open as open_day

COMMANDS: tuple[ModuleType, ...] = (new, days, plan, part, notes, rules, page, open_day, boards, figures, publish, adopt, compare, saved,
                                   take, program_words)
"""The modules of the commands, in the order of the help.

Each has `add_arguments(parser)` and `run(arguments) -> int`. One of a single word has `WORD` and `HELP`; one of several
has `WORDS`, a table from each word to its help. `arguments.word` is the word that was given, and `add_arguments` finds it as
`parser.get_default("word")`.
"""

ENDS = (signal.SIGINT, signal.SIGTERM, signal.SIGHUP)
"""The signals that end a command: Ctrl+C, a plain `kill`, and the end of its terminal."""

DESCRIPTION = """\
From an agency's zip to a plan: drafts what the program reads, tells what looks wrong, and draws.
Vehicles, blocks, minutes and verdicts come from the proved program blockdesk. The workbench itself is not proved."""

STATUSES = """\
statuses: 0 all is well, 1 something to look at or an error, 2 the words are of no form; the words of the program end
with its own statuses. `desk COMMAND --help` tells of a command."""


class Parser(argparse.ArgumentParser):
    """A parser whose errors are one line as all others are."""

    def error(self, message: str) -> NoReturn:
        """Ends with the message of what is of no form."""
        raise UsageError(f"{message} (`{self.prog} --help` tells the words)")

    def format_help(self) -> str:
        """The help in the order of all scripts: what a command does, its details with an example, its arguments, and its options."""
        formatter = self._get_formatter()
        formatter.add_usage(self.usage, self._actions, self._mutually_exclusive_groups)
        formatter.add_text(self.description)
        formatter.add_text(self.epilog)
        for group in sorted(self._action_groups, key=lambda group: group is self._optionals):
            formatter.start_section(group.title)
            formatter.add_text(group.description)
            formatter.add_arguments(group._group_actions)
            formatter.end_section()
        return formatter.format_help()

    def print_help(self, file: TextIO | None = None) -> None:
        """Prints the help, and does not pass over an error of the output as the library would."""
        print(self.format_help(), end="", file=file)


class ShowVersion(argparse.Action):
    """Prints the version, which is looked up only where it is asked."""

    def __call__(self, parser: argparse.ArgumentParser, *unused: object) -> NoReturn:
        """Prints it and ends."""
        print(version())
        parser.exit()


def words_of(module: ModuleType) -> dict[str, str]:
    """The words of a module, each with its help."""
    return getattr(module, "WORDS", None) or {module.WORD: module.HELP}


def make_parser() -> Parser:
    """The parser of all commands."""
    parser = Parser(prog="desk", description=DESCRIPTION, epilog=STATUSES,
                    formatter_class=argparse.RawDescriptionHelpFormatter)
    parser.add_argument("--version", action=ShowVersion, nargs=0, help="print the commit and the kit, and end")
    words = parser.add_subparsers(title="commands", metavar="COMMAND", dest="word", required=True)
    for module in COMMANDS:
        for word, text in words_of(module).items():
            of_word = words.add_parser(word, help=text, description=text,
                                       formatter_class=argparse.RawDescriptionHelpFormatter)
            of_word.set_defaults(word=word, run=module.run)
            module.add_arguments(of_word)
    return parser


def with_signs(words: Sequence[str]) -> list[str]:
    """The words with `--depot -33.9,18.4` as `--depot=-33.9,18.4`, since a minus would begin an option."""
    joined: list[str] = []
    for word in words:
        if re.match("-[0-9]", word) and joined and re.fullmatch("--[a-z][a-z-]*", joined[-1]):
            joined[-1] += "=" + word
        else:
            joined.append(word)
    return joined


def towns_of(arguments: argparse.Namespace) -> list[Path]:
    """The folders of towns among the words of a command line."""
    named = [getattr(arguments, name, None) for name in ("town", "other")]
    named += [] if arguments.word == "sample" else [*getattr(arguments, "words", []), *getattr(arguments, "towns", [])]
    found = [Path(name) for name in named if name is not None and os.path.isdir(name)]
    return list(dict.fromkeys([*found, *(above for folder in found if (above := town_above(folder)))]))


def run_words(words: Sequence[str]) -> int:
    """Runs a command line, whose errors are raised, and gives its status. First it is seen that its towns are whole."""
    try:
        arguments = make_parser().parse_args(with_signs(words))
    except SystemExit:
        return 0
    for town in towns_of(arguments):
        refuse_pipes(town)
        for told in mend(town):
            complain(told)
    return arguments.run(arguments)


def release_output() -> None:
    """Lets go of a standard output that takes no more, so that nothing is tried with it at the end."""
    try:
        print(end="", flush=True)
    except OSError:
        os.dup2(os.open(os.devnull, os.O_WRONLY), sys.stdout.fileno())


def main(words: Sequence[str]) -> int:
    """Runs a command line and gives its status. No error ends with a traceback, and after Ctrl+C what was begun is put away."""
    before = {number: signal.getsignal(number) for number in ENDS}
    try:
        for number, handler in before.items():
            if handler is signal.SIG_DFL:
                signal.signal(number, signal.default_int_handler)
        return answer(words)
    except KeyboardInterrupt:
        restore(before)
        complain("stopped")
        return 1
    finally:
        restore(before)


def restore(handlers: Mapping[int, Any]) -> None:
    """Handles signals as before."""
    for number, handler in handlers.items():
        if handler is not None:
            signal.signal(number, handler)


def answer(words: Sequence[str]) -> int:
    """Runs a command line and gives its status. Its errors are told in words."""
    if isinstance(sys.stdout, io.TextIOWrapper):
        sys.stdout.reconfigure(encoding="utf-8", errors="surrogateescape")
    try:
        with shown_on_terminals():
            status = run_words(words)
            print(end="", flush=True)
        return status
    except DeskError as error:
        for line in (str(error), *error.hints):
            complain(line)
        return error.status
    except BrokenPipeError:
        release_output()
    except OSError as error:
        complain(f"{error.filename}: {reason(error)}" if error.filename else reason(error))
        release_output()
    except MemoryError:
        complain("there is not enough memory")
    except Exception as error:  # pylint: disable=broad-except
        complain(f"this is a mistake of the workbench itself: {type(error).__name__}: {error}")
    return 1
