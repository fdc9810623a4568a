"""The policies of pages: what a browser may load and run for one."""
from __future__ import annotations

import base64
import hashlib


def checksum(text: str) -> str:
    """How a policy names a style or a script by its bytes."""
    return f"'sha256-{base64.b64encode(hashlib.sha256(text.encode()).digest()).decode()}'"
