"""Which commit and which kit this is: by PROVENANCE of an archive, else by git and `rt`."""
from __future__ import annotations

import subprocess

from desk.program import ROOT

UNKNOWN = "unknown"


def version() -> str:
    """The lines that `--version` prints: the commit, and the line of the kit."""
    commit, kit = _provenance() or (_answer("git", "-C", str(ROOT), "rev-parse", "HEAD"), _answer("rt", "version"))
    return f"desk of commit {commit}\nkit: {kit}"


def _provenance() -> tuple[str, str] | None:
    """The commit and the line of the kit of an archive, or None where this is none."""
    try:
        lines = (ROOT / "PROVENANCE").read_text("utf-8").splitlines()
    except (OSError, ValueError):
        return None
    commit = next((line.removeprefix("commit ") for line in lines if line.startswith("commit ")), UNKNOWN)
    return commit, next((line for line in lines if line.startswith("rattle-kit")), UNKNOWN)


def _answer(*words: str) -> str:
    """The first line that a command answers, or 'unknown' where it cannot."""
    try:
        ran = subprocess.run(words, capture_output=True, stdin=subprocess.DEVNULL, timeout=20, check=True)
    except (OSError, subprocess.SubprocessError):
        return UNKNOWN
    return ran.stdout.decode("utf-8", "replace").partition("\n")[0] or UNKNOWN
