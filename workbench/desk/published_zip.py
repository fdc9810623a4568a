"""A feed as a zip, which is written only once it is judged. The same files make the same zip."""
from __future__ import annotations

import shutil
import zipfile
from collections.abc import Callable
from pathlib import Path
from tempfile import TemporaryDirectory
from typing import TypeVar

from desk.files import whole_file

Made = TypeVar("Made")


def write_judged(out: Path, replace: bool, make: Callable[[Path], Made], judge: Callable[[Path, Made], None]) -> Made:
    """Writes the zip of a feed. `make` makes its files in a folder, and `judge` raises an error where the zip is not to be written."""
    with TemporaryDirectory(prefix="desk-") as work:
        feed, packed = Path(work) / "feed", Path(work) / "feed.zip"
        feed.mkdir()
        made = make(feed)
        write_zip(feed, packed)
        judge(packed, made)
        with open(packed, "rb") as source, whole_file(out, replace=replace) as file:
            shutil.copyfileobj(source, file)
    return made


def write_zip(folder: Path, packed: Path) -> None:
    """Writes the files of a folder as a zip."""
    with zipfile.ZipFile(packed, "w", zipfile.ZIP_DEFLATED) as archive:
        for path in sorted(folder.iterdir()):
            entry = zipfile.ZipInfo(path.name)
            entry.compress_type = zipfile.ZIP_DEFLATED
            with open(path, "rb") as source, archive.open(entry, "w", force_zip64=True) as target:
                shutil.copyfileobj(source, target)
