"""The map of the workbench: each module with the first paragraph of what it says of itself."""
import ast
import pathlib
import re

from pages.crates import ROOT
from pages.page import begun, link, table

DESK = ROOT / "workbench" / "desk"
INTRO = """The workbench never computes an answer of the program: it asks `./blockdesk`, and reads what that prints.
[ARCHITECTURE.md](ARCHITECTURE.md#the-way-of-a-drag) follows a drag through it.
"""


def purpose_of(path: pathlib.Path) -> str:
    """The first paragraph of a module's docstring, or of the comment at the head of a script of the page."""
    text = path.read_text()
    if path.suffix == ".py":
        text = ast.get_docstring(ast.parse(text)) or ""
    else:
        found = re.match(r"/\*\*(.*?)\*/", text, re.DOTALL)
        text = re.sub(r"(?m)^ ?\* ?", "", found[1]) if found else ""
    return " ".join(text.strip().split("\n\n")[0].split())


def rows(ending: str) -> list[tuple[str, str]]:
    """A row for each module of an ending, folder by folder."""
    paths = sorted((path for path in DESK.rglob(f"*{ending}") if purpose_of(path)), key=lambda it: (it.parent, it.name))
    return [(link(f"`{path.relative_to(DESK)}`", path.relative_to(ROOT)), purpose_of(path)) for path in paths]


def workbench() -> str:
    """The page."""
    return "".join([begun("The workbench", INTRO), "\n## Python\n\n", table(("Module", "What it is for"), rows(".py")),
                    "\n## The page in the browser\n\n", table(("Module", "What it is for"), rows(".js"))])
