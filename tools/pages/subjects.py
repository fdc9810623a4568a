"""What the documents for planners must name: files, columns, refusals, keys, words of edits, commands and options."""
import ast
import re

from pages.crates import ROOT
from pages.tables import FAULTS, PLANNERS, columns, papers, source, texts_of

PAGES = ("FORMATS.md", "PLANNING.md", "PERIOD.md")
COMMANDS = "COMMANDS.md"
"""Where options may stand too."""
GIVEN = re.compile(r"\b(?:FILE|COLUMN|KEY|TRIP|MINUTES|PRICES|WEIGHTS|N)\b|from\|to|\brecord\b|stop_times\.txt")
WEEK = ("tuesday", "wednesday", "thursday", "friday", "saturday")
"""What stands in the pages as `monday` to `sunday`."""


def coded(crate: str, module: str, what: str) -> list[str]:
    """The texts with which definitions of a file of specs/ compare a thing."""
    return re.findall(rf'bytes_eq {what} \(codes "([^"]+)"\)', source(f"crates/{crate}/specs/{module}.antt"))


def refusals() -> list[str]:
    """The fixed parts of the texts of refusals."""
    keys = [key for _, _, _, key, _ in FAULTS if key != PLANNERS]
    texts = [text for key in keys for text in texts_of(key).values()] + [texts_of(PLANNERS)["HeldBy"]]
    found = [it.strip(" :,()") for text in texts for it in GIVEN.split(text)]
    return [it for it in dict.fromkeys(found) if len(it) > 3 and it not in papers().values()]


def options() -> list[str]:
    """The options of the commands of the workbench."""
    found = []
    for path in sorted((ROOT / "workbench" / "desk").rglob("*.py")):
        for node in ast.walk(ast.parse(path.read_text())):
            if isinstance(node, ast.Call) and isinstance(node.func, ast.Attribute) and node.func.attr == "add_argument":
                found += [it.value for it in node.args if isinstance(it, ast.Constant) and str(it.value).startswith("--")]
    return list(dict.fromkeys(found))


def subjects() -> dict[str, list[str]]:
    """What must be named, by kinds."""
    return {
        "file": list(papers().values()),
        "column": [name for name in columns().values() if name != "field" and name not in WEEK],
        "refusal": refusals(),
        "key of desk.toml": coded("desk_settings", "Desk", "key"),
        "word of an edit": coded("edit_script", "Forms", "word"),
        "command": [*coded("desk_program", "Commands", "word"), "sample"],
        "option": options(),
    }


def unnamed() -> list[str]:
    """What no page names."""
    text = "\n".join((ROOT / "docs" / page).read_text() for page in PAGES)
    of_kind = {"option": text + (ROOT / "docs" / COMMANDS).read_text()}
    return [f"{kind} {name}" for kind, names in subjects().items() for name in names
            if not re.search(rf"(?<![\w-]){re.escape(name)}(?![\w-])", of_kind.get(kind, text))]
