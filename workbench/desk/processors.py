"""How many runs go side by side."""
from __future__ import annotations

import os


def processors() -> int:
    """How many processors this run may use."""
    return len(os.sched_getaffinity(0))
