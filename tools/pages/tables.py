"""The tables of statuses, files, columns, refusals and limits, from their enums and constants."""
import functools
import pathlib
import re

from pages.contracts import Function, blanked, closing, functions, linked
from pages.crates import ROOT
from pages.page import begun, link, sentence, table
from pages.specs import Key, Names, definitions, specs
from pages.texts import printed

INTRO = """[FORMATS.md](FORMATS.md) says when each comes, and what is read and printed. In a text, words in capitals stand for
what a run has: FILE for the name of a file, N for the number of a record, which is counted from 1 after the header. A function is
a link to its line, and so is a constant.
"""
STATUS = "crates/desk_run/src/status.rt"
LIMITS = "crates/limits/src/limits.rt"
OPTIONAL = re.compile(r"\b(?:field_of|selected_fields) column\.(\w+) trips\b")
"""How definitions read a column of `trips.txt` that need not be there."""

TESTS = ("uses", "examples_computed")
"""Crates that refuse nothing."""
EDITS: Key = ("edit_script", "Lines", "fault_text_of")
PLANNERS: Key = ("planners_command", "Answers", "planner_fault_text")
FAULTS = [
    ("Refused feeds", "crates/gtfs_tables/src/fault.rt", "FeedFault", ("gtfs_tables", "Faults", "fault_text_of"),
     "The line is `feed refused: TEXT`."),
    ("Refused edits", "crates/edit_script/src/fault.rt", "EditFault", EDITS,
     "The line is `record N: refused, TRIP: TEXT`, without the trip where the edit names none."),
    ("Refused records of planners", "crates/planner_desk/src/fault.rt", "PlannerFault", PLANNERS,
     "The line is `planner N: refused, TRIP: TEXT`, where a trip is named."),
    ("Files that are no claim", "crates/claim_files/src/fault.rt", "ClaimFault", ("claim_files", "Lines", "claim_text_of"),
     "The line is `no: TEXT`."),
    ("Reasons against a claim", "crates/price_check/src/verdict.rt", "Reason", ("claim_files", "Lines", "reason_text_of"),
     "The line is `no: TEXT`. The first reason counts."),
]


def source(file: str) -> str:
    """A file of the sources."""
    return (ROOT / file).read_text()


def constants(file: str) -> list[tuple[str, int, str]]:
    """The constants of a file: name, value and comment."""
    found = re.findall(r"((?:^ *///[^\n]*\n)*)^ *pub(?:\([\w ]+\))? const (\w+): \w+ = ([^;]+);", source(file), re.MULTILINE)
    return [(name, value.strip(), comment_of(text)) for text, name, value in found]


def comment_of(text: str) -> str:
    """The words of comment lines."""
    return " ".join(line.strip().removeprefix("///").strip() for line in text.splitlines())


def block(file: str, kind: str, name: str) -> str:
    """What stands between the braces of an enum or a struct."""
    found = re.search(rf"pub {kind} {name} \{{\n(.*?)^\}}", source(file), re.MULTILINE | re.DOTALL)
    if not found:
        raise SystemExit(f"book: {file} has no {kind} {name}")
    return found[1]


def variants(file: str, name: str) -> dict[str, str]:
    """The variants of an enum with their comments."""
    found = re.findall(r"((?:^    ///[^\n]*\n)*)^    (\w+)(?=[(,{ ])", block(file, "enum", name), re.MULTILINE)
    return {variant: comment_of(text) for text, variant in found}


def names_by(file: str, kind: str) -> dict[str, str]:
    """The names that the arms of a match give the variants of an enum."""
    return dict(re.findall(rf'{kind}::(\w+) => "([^"]*)"', source(file)))


def statuses() -> str:
    """The table of statuses."""
    said = dict(re.findall(r'status == (\w+) then Some \(codes "([^"]*)"\)', source("crates/desk_program/specs/Status.antt")))
    rows = [(value, sentence(comment), f"`{said[name]}`" if name in said else "") for name, value, comment in constants(STATUS)]
    if len(rows) < 2 or not set(said) <= {name for name, _, _ in constants(STATUS)}:
        raise SystemExit("book: the statuses are not found")
    return table(("Status", "Comes", "On standard error"), rows)


def papers() -> dict[str, str]:
    """The names of files by the variants of `Paper`."""
    return names_by("crates/gtfs_tables/src/paper.rt", "Paper")


def columns() -> dict[str, str]:
    """The names of columns by the variants of `Column`."""
    return names_by("crates/gtfs_tables/src/paper.rt", "Column")


def required() -> dict[str, list[str]]:
    """For each variant of `Paper` the columns that its file must have, in the order in which they are looked for."""
    found: dict[str, list[str]] = {}
    week = re.findall(r"column\.(\w+)", definitions()["service_days", "Calendar", "weekdays"].text)
    for spec in specs():
        texts = {it.name: it.text for it in spec.definitions if "column_in paper." in it.text}
        parts = {name for name in texts if any(f" {name} header" in text for text in texts.values())}
        for text in (text for name, text in texts.items() if name not in parts):
            for part in parts:
                text = text.replace(f" {part} header", f" {texts[part]}")
            for paper, column in re.findall(r"column_in paper\.(\w+) (column\.\w+|\(weekday day\))", text):
                names = [column.removeprefix("column.")] if column.startswith("column.") else week
                found.setdefault(paper, []).extend(name for name in names if name not in found.get(paper, []))
    return found


def optional() -> dict[str, list[str]]:
    """For each variant of `Paper` the columns that are read where its file has them."""
    texts = [it.text for spec in specs() for it in spec.definitions]
    return {"Trips": list(dict.fromkeys(it for text in texts for it in OPTIONAL.findall(text)))}


def files() -> str:
    """The table of files and their columns."""
    found, more = required(), optional()
    rows = []
    for paper, name in papers().items():
        names = [f"`{columns()[it]}`" for it in found.get(paper, [])]
        names += [f"(`{columns()[it]}`)" for it in more.get(paper, []) if it not in found.get(paper, [])]
        rows.append((f"`{name}`", ", ".join(names)))
    return table(("File", "Columns in the order in which they are looked for, in brackets where they need not be there"), rows)


@functools.cache
def makers(enum: str) -> dict[str, list[Function]]:
    """For each variant of an enum the functions that make it, but those that hand it on or print it."""
    found: dict[str, list[Function]] = {}
    for path in dict.fromkeys(it.file for it in functions() if it.crate not in TESTS):
        text = blanked(source(str(path)))
        here = [it for it in functions() if it.file == path]
        made, matched = [], set()
        for named in re.finditer(rf"(?<!\w){enum}::(\w+)", text):
            line = text.count("\n", 0, named.start()) + 1
            owner = next((it for it in here if it.line <= line <= it.last), None)
            if owner is None:
                raise SystemExit(f"book: {path}:{line} names {named[0]} outside of functions")
            end = closing(text, named.end()) if text[named.end()] == "(" else named.end()
            if re.match(r"\s*(=>|\|(?!\|)|if\b|=(?!=))", text[end:]):
                matched.add((named[1], owner))
            elif not owner.name.endswith("fault_text"):
                made.append((named[1], owner))
        for variant, owner in dict.fromkeys(it for it in made if it not in matched):
            found.setdefault(variant, []).append(owner)
    return found


def texts_of(key: Key) -> dict[str, str]:
    """What a definition prints of each refusal, as a pattern."""
    names = Names(source(f"crates/{key[0]}/specs/{key[1]}.antt"))
    return printed(definitions()[key], names, {f"paper.{paper}": name for paper, name in papers().items()})


def refusals(file: str, enum: str, key: Key) -> str:
    """The table of the refusals of an enum, each with its text."""
    texts = {case: f"`{text}`" for case, text in texts_of(key).items()}
    if key == PLANNERS:
        # Those of an edit are printed by the definition of that.
        edits = texts_of(EDITS)
        texts |= {case: f"`{edits[case]}`" for case in texts if case in edits} | {"Refused": "that of the edit"}
    rows = []
    for case, comment in variants(file, enum).items():
        if case != "Memory":
            if case not in texts:
                raise SystemExit(f"book: {enum}::{case} has no text")
            rows.append((texts[case], sentence(comment), linked(makers(enum).get(case, []))))
    return table(("Text", "Comes", "Refused by"), rows)


def home_of(crate: str, constant: str) -> tuple[pathlib.Path, int]:
    """The file of a crate that has a constant, from the root, and the constant's line."""
    for path in sorted((ROOT / "crates" / crate / "src").glob("*.rt")):
        for number, line in enumerate(path.read_text().splitlines(), 1):
            if f"const {constant}:" in line:
                return path.relative_to(ROOT), number
    raise SystemExit(f"book: {constant} is no constant of {crate}")


def limits() -> str:
    """The table of limits, each with the constant that owns it."""
    text = source(LIMITS)
    owners = {it: crate for crate, names in re.findall(r"use (\w+)::\{?([^};]*)\}?;", text) for it in re.findall(r"\w+", names)}
    values = dict(re.findall(r"^      (\w+) = (\d+);", text, re.MULTILINE))
    held = dict(re.findall(r"^        (\w+): (\w+),", text, re.MULTILINE))
    fields = re.findall(r"((?:^    ///[^\n]*\n)+)^    pub (\w+):", block(LIMITS, "struct", "Limits"), re.MULTILINE)
    rows = []
    for comment, field in fields:
        name = held[field]
        file, line = home_of(owners[name], name)
        owner = f"{link(f'`{name}`', file, line)} in {owners[name]}/{file.name}"
        rows.append((sentence(comment_of(comment)), f"{int(values[field]):,}", owner))
    return table(("Limit", "At most", "Constant"), rows)


def page() -> str:
    """The page."""
    parts = [begun("Tables", INTRO), "\n## Statuses\n\n", statuses(), "\n## Files and columns\n\n", files()]
    for title, file, enum, key, text in FAULTS:
        parts.append(f"\n## {title}\n\n{text} {link(f'`{enum}`', pathlib.Path(file))} has them.\n\n" + refusals(file, enum, key))
    return "".join([*parts, "\n## Limits\n\n", limits()])
