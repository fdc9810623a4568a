"""The index of rules: each with its definitions, and the functions that compute it."""
import re
from collections.abc import Callable

from pages.contracts import Function, citing, linked
from pages.page import begun, link, table
from pages.specs import Definition, definitions, users

INTRO = """Rules are in the order of their words in bold, and each name of a definition or a function is a link to its line.

An example: `feed_trip_at` defines the layover of a trip, and the function of the same name adds it. A rule may have several
definitions. An edit that adds a trip adds a layover too, so that rule has a second row.

- A rule is a definition in `specs/` with a line `-- rule: NAME` above it. The function that computes it cites it in its contract.
- The functions are those of the definition's own crate, or else of the lowest one that has any, and at most four. "By" names a
  definition in between, where no contract cites the rule itself.
- [FORMATS.md](FORMATS.md) has the rules in words. [TABLES.md](TABLES.md) finds a refusal by its text, and a limit by its number.
"""
LEAD = re.compile(r"(?:(?:the|a|an|which|what|how|many|much|when|why|of|several|too|is|holds|without) )*")
MOST = 4
EXAMPLES = "examples_computed"


def is_shown(function: Function) -> bool:
    """Whether a function computes something. A law does nothing, and an example computes by what it shows."""
    return not function.name.endswith("_law") and function.crate != EXAMPLES


def stems(name: str) -> set[str]:
    """The words of a name that say what it is about, each without an ending of the plural."""
    words = re.findall(r"[A-Z]?[a-z]+", name.rpartition("::")[2])
    return {it.lower().removesuffix("s") for it in words} - {"of", "with", "are"} - {"i", "ha"}


def first_of(found: list[Function], *tests: Callable[[Function], bool]) -> list[Function]:
    """The functions that hold to the first test to which any holds, or all."""
    return next((some for test in tests if (some := [it for it in found if test(it)])), found)


def nearest(rule: Definition) -> tuple[str, list[Function]]:
    """The functions of a rule's crate that cite a definition through which they reach the rule, and the name of the nearest."""
    seen = [rule.key]
    for key in seen:
        seen += [it for it in users().get(key, []) if it not in seen and it[0] == rule.key[0]]
        if key != rule.key and (found := [it for it in citing().get(key, []) if it.crate == rule.key[0] and is_shown(it)]):
            return key[2], found
    return "", []


def code_of(rule: Definition) -> tuple[str, list[Function]]:
    """The functions that compute a rule, with the name of the definition through which they cite it, if they do not name it."""
    cited = citing().get(rule.key, [])
    by, found = "", [it for it in cited if is_shown(it)]
    if not found:
        by, found = nearest(rule)
    if not found:
        return "", first_of(cited, lambda it: it.crate != EXAMPLES)
    key, name = rule.key, rule.name
    found = first_of(found, lambda it: key in it.ensures and it.name.rpartition("::")[2] == name,
                     lambda it: key in it.ensures and it.crate == key[0], lambda it: key in it.equals, lambda it: key in it.ensures)
    found = [it for it in found if it.crate == found[0].crate]
    found = first_of(first_of(found, lambda it: key in it.equals), lambda it: bool(stems(it.name) & stems(name)))
    return by, list({it.name: it for it in reversed(found)}.values())[::-1][:MOST]


def shown(rule: Definition) -> str:
    """The code of a rule."""
    by, found = code_of(rule)
    return f"by `{by}`: {linked(found)}" if by else linked(found)


def rules() -> dict[str, list[Definition]]:
    """The definitions of each rule, in the order of crates.txt."""
    found: dict[str, list[Definition]] = {}
    for it in definitions().values():
        for rule in it.rules:
            found.setdefault(rule, []).append(it)
    return found


def without_code() -> list[str]:
    """The rules that a definition has which no contract cites."""
    return [f"{rule} (`{it.name}`)" for rule, owners in rules().items() for it in owners if not code_of(it)[1]]


def lead_of(rule: str) -> str:
    """What comes before the first word of a rule that says what it is about."""
    found = LEAD.match(rule)
    return found[0] if found else ""


def name_of(rule: str) -> str:
    """The name of a rule, with the word in bold by which it is found."""
    lead = lead_of(rule)
    word = re.match(r"[^\s,]+", rule[len(lead):])
    return f"{lead}**{word[0]}**{rule[len(lead) + word.end():]}" if word else rule


def sorted_by(rule: str) -> str:
    """What the order of the rules goes by."""
    return rule[len(lead_of(rule)):].replace("`", "").lower()


def index() -> str:
    """The page."""
    rows = []
    for rule, owners in sorted(rules().items(), key=lambda it: sorted_by(it[0])):
        for it in owners:
            definition = f"{link(f'`{it.name}`', it.file, it.line)} in {it.key[0]}/{it.file.name}"
            rows.append((name_of(rule) if it is owners[0] else "", definition, shown(it)))
    return begun("Rules", INTRO) + "\n" + table(("Rule", "Definition", "Computed by"), rows)
