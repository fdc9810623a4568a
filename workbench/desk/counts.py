"""Counts in words: a number with its thing, and the first names of a list."""
from __future__ import annotations

from collections.abc import Sequence

MOST_NAMED = 4
"""How many names of a list are named."""


def counted(number: int, thing: str) -> str:
    """A number with its thing: `1 stop`, `1,742 trips`."""
    return f"{number:,} {thing}" + ("" if number == 1 else "s")


def some(names: Sequence[str]) -> str:
    """Some names of a list, and how many more there are."""
    more = len(names) - MOST_NAMED
    return "; ".join(names[:MOST_NAMED]) + (f"; and {more:,} more" if more > 0 else "")
