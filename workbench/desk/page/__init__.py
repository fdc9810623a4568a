"""`desk page`: the day, or each day of a period, as one file that needs no other, to look at, to send, and to print.

The page of `desk open` shows the same views, by the same files of `static/`.
"""
from __future__ import annotations

import argparse
import re
import sys
from pathlib import Path

from desk.day import Day
from desk.errors import DeskError, complain
from desk.files import refuse_if_there, write_whole
from desk.hints.scripts import script_hints
from desk.page.period import PeriodView
from desk.page.view import as_text, as_view
from desk.period import TownPeriod, has_days
from desk.policy import checksum
from desk.proof import read_day
from desk.town import Town

WORD = "page"
HELP = "the day as one page: its blocks, terminals and numbers, to look at and to print"

STATIC = Path(__file__).resolve().parent / "static"
"""The folder of the page's own files."""

IMPORT = re.compile(r'import \{ (.+) \} from "\./([a-z_]+)\.js";\n')
EXPORT = re.compile(r"^export (?=(?:async )?(?:function|class|const) (\w+))", re.M)
STYLE = '<link rel="stylesheet" href="page.css">'
SCRIPT = '<script type="module" src="main.js"></script>'


def add_arguments(parser: argparse.ArgumentParser) -> None:
    """The words of `desk page`."""
    parser.add_argument("town", help="the folder of the feed")
    parser.add_argument("-o", "--output", type=Path, metavar="FILE", help="where to write (without it: to standard output)")
    parser.add_argument("--replace", action="store_true", help="write over a file that is there")


def run(arguments: argparse.Namespace) -> int:
    """Writes the page. The status is 1 where a record of the script is refused, or another plan stands in the town."""
    if arguments.output:
        refuse_if_there(arguments.output, arguments.replace)
    period = PeriodView(TownPeriod(arguments.town)) if has_days(Path(arguments.town)) else None
    days = [read_day(town) for town in (period.towns if period else [Town(arguments.town)])]
    views = [as_view(day) for day in days]
    page = static_page(as_text(period.with_all(views) if period else views[0]))
    if arguments.output:
        write_whole(arguments.output, page, replace=arguments.replace)
    else:
        sys.stdout.write(page)
    return max(tell_what_to_look_at(day) for day in days)


def tell_what_to_look_at(day: Day) -> int:
    """Says what of a day a planner should know beside the page."""
    refused = [record.said for record in day.records if not record.ok]
    place = f"{day.town.folder}: " if day.town.above else ""
    for line in (*(f"edits.csv: {said}" for said in refused), *script_hints(day.town, "\n".join(refused))):
        complain(place + line)
    if day.written == "other":
        complain(f"blocks.csv in {day.town.folder} is of another plan: `./desk blocks {day.town.folder}` writes the one that is drawn")
    return 1 if refused or day.written == "other" else 0


def static_page(view: str) -> str:
    """The page with this day in it. Its own style and script stand in it, and by their checksums no others are run."""
    style, script = (STATIC / "page.css").read_text("utf-8"), joined_script()
    policy = (f"default-src 'none'; img-src data:; style-src {checksum(style)}; script-src {checksum(script)}; "
              "base-uri 'none'; form-action 'none'")
    page = (STATIC / "index.html").read_text("utf-8")
    page = replace_once(page, STYLE, f'<meta http-equiv="Content-Security-Policy" content="{policy}">\n<style>{style}</style>')
    page = replace_once(page, SCRIPT, f'<script type="application/json" id="day">{view}</script>\n<script type="module">{script}</script>')
    return page


def replace_once(text: str, part: str, by: str) -> str:
    """A text with one part replaced, which stands in it once."""
    before, found, behind = text.partition(part)
    if not found or part in behind:
        raise DeskError(f"{STATIC / 'index.html'}: {part} has to stand in it once")
    return before + by + behind


def joined_script() -> str:
    """The modules of the page as one script: each in a function of its own, behind those that it imports."""
    texts: dict[str, str] = {}
    _add_module("main", texts)
    return "\n".join(texts.values())


def _add_module(name: str, texts: dict[str, str]) -> None:
    """Adds a module behind those that it imports, where it is not there yet."""
    if name in texts:
        return
    text = (STATIC / f"{name}.js").read_text("utf-8")
    for _, imported in IMPORT.findall(text):
        _add_module(imported, texts)
    exported = EXPORT.findall(text)
    inner = EXPORT.sub("", IMPORT.sub(r"const { \1 } = module_\2;\n", text))
    texts[name] = f"const module_{name} = (() => {{\n{inner}return {{ {', '.join(exported)} }};\n}})();"
