"""What the Python scripts of this folder have alike in reading their words.

`--help` prints a script's docstring and its words, and does nothing else. A wrong word gives the usage line and status 2.
"""
import argparse
import pathlib
from collections.abc import Callable


def parser_of(script: str, text: str | None) -> argparse.ArgumentParser:
    """The parser of a script, with its docstring."""
    return argparse.ArgumentParser(prog=f"tools/{script}", description=text, allow_abbrev=False,
                                   formatter_class=argparse.RawDescriptionHelpFormatter)


def at_least(least: int) -> Callable[[str], int]:
    """The reader of a whole number that is not below another."""
    def number(text: str) -> int:
        if not (text.isascii() and text.isdigit() and int(text) >= least):
            raise argparse.ArgumentTypeError(f"{text!r} is no whole number from {least} on")
        return int(text)
    return number


def folder_to_fill(text: str) -> pathlib.Path:
    """A folder that is there, or that can be made."""
    path = pathlib.Path(text)
    if path.exists() and not path.is_dir():
        raise argparse.ArgumentTypeError(f"{text!r} is no folder")
    return path


def existing_file(text: str) -> pathlib.Path:
    """A file that is there."""
    path = pathlib.Path(text)
    if not path.is_file():
        raise argparse.ArgumentTypeError(f"{text!r} is no file")
    return path
