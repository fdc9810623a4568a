"""The commands of the workbench: their words and options by its parser, the keys of their answers as JSON, and their columns."""
import argparse
import ast
import importlib
import sys
import types
from collections.abc import Iterator
from typing import Any, Literal, get_args, get_origin, get_type_hints, is_typeddict

from pages.crates import ROOT
from pages.page import begun, paragraphs, sentence, table

INTRO = """`./desk COMMAND --help` prints the words of a command too. [PLANNING.md](PLANNING.md) shows them at work, and
[FORMATS.md](FORMATS.md) has the texts of the program, and [TABLES.md](TABLES.md#statuses) its statuses.
"""
VALUES = {str: "text", int: "number", float: "number", types.NoneType: "null"}


def of_workbench(module: str) -> types.ModuleType:
    """A module of the workbench."""
    folder = str(ROOT / "workbench")
    if folder not in sys.path:
        sys.path.insert(0, folder)
    return importlib.import_module(f"desk.{module}")


def parsers() -> dict[str, argparse.ArgumentParser]:
    """The parser of each command."""
    top = of_workbench("cli").make_parser()
    return next(it.choices for it in top._actions if isinstance(it, argparse._SubParsersAction))


def named(action: argparse.Action) -> str:
    """A word or an option with its value, as one writes it."""
    value = action.metavar or ("|".join(action.choices) if action.choices else action.dest.upper())
    if not action.option_strings:
        return f"[{value}]" if action.nargs == "?" else value
    return ", ".join(action.option_strings) + ("" if action.nargs == 0 else f" {value}")


def words() -> str:
    """The table of commands."""
    rows = []
    for word, parser in parsers().items():
        places = [named(it) for it in parser._actions if not it.option_strings or it.required]
        rows.append((f"`./desk {' '.join([word, *places])}`", sentence(parser.description or "")))
    said = " ".join(of_workbench("cli").STATUSES.partition(". ")[0].split())
    return f"{table(('Command', 'What it does'), rows)}\n{sentence(said)}\n"


def options() -> str:
    """The table of options. One that several commands have alike is one row."""
    found: dict[tuple[str, str], list[str]] = {}
    version = of_workbench("cli").make_parser()
    for word, parser in [("", version), *parsers().items()]:
        for it in parser._actions:
            if it.option_strings and not isinstance(it, argparse._HelpAction):
                help_of = (it.help or "") % {**vars(it), "prog": parser.prog}
                found.setdefault((named(it), help_of), []).append(f"`{word}`" if word else "`./desk`")
    return table(("Option", "Of", "What it says"), [(f"`{name}`", ", ".join(of), sentence(text)) for (name, text), of in found.items()])


def value_of(form: Any) -> str:
    """A value in words."""
    if is_typeddict(form):
        return next((f"answer of `{command}`" for command, it in tops() if it is form), form.__name__)
    if get_origin(form) is list:
        return f"list of {value_of(get_args(form)[0])}"
    if get_origin(form) is Literal:
        return " or ".join(f"`{it}`" if isinstance(it, str) else str(it).lower() for it in get_args(form))
    if get_origin(form) is types.UnionType:
        return " or ".join(dict.fromkeys(value_of(it) for it in get_args(form)))
    return VALUES[form]


def keys_of(form: Any) -> str:
    """The keys of an object with their values."""
    return ", ".join(f"`{key}` {value_of(value)}" for key, value in get_type_hints(form).items())


def tops() -> Iterator[tuple[str, Any]]:
    """Each object that is a whole answer of a command, with the command."""
    for command, form in of_workbench("json_forms").FORMS.items():
        yield from ((command, it) for it in ([form] if is_typeddict(form) else get_args(form)))


def answers() -> str:
    """The tables of answers and of their parts."""
    forms, said = of_workbench("json_forms"), comments("json_forms")
    rows = [(f"`{command}`", keys_of(it), said[it.__name__]) for command, it in tops()]
    rows.append(("any of the program", keys_of(forms.FeedRefused), said["FeedRefused"]))
    shown = {forms.FeedRefused, *(it for _, it in tops())}
    objects = [it for name in said if is_typeddict(it := getattr(forms, name)) and it not in shown]
    parts = [(it.__name__, keys_of(it), said[it.__name__]) for it in objects]
    without = [f"`{word}`" for word in of_workbench("program_words").WORDS if word not in forms.FORMS]
    return (f"{paragraphs((forms.__doc__ or '').partition(chr(10))[2])}\n\n{', '.join(without[:-1])} and {without[-1]} have none.\n\n"
            + table(("Command", "Keys", "What it says"), rows) + "\n" + table(("Part", "Keys", "What it is"), parts))


def records() -> str:
    """The table of records that commands print."""
    found = [(word, of_workbench(word).COLUMNS, comments(word)["COLUMNS"]) for word in ("boards", "figures")]
    rows = [(f"`{word}`", ", ".join(f"`{it}`" for it in columns), text) for word, columns, text in found]
    return table(("Command", "Columns", "What the records are"), rows)


def comments(module: str) -> dict[str, str]:
    """What is said below each name of a module of the workbench."""
    body = ast.parse((ROOT / "workbench" / "desk" / f"{module}.py").read_text()).body
    return {made.targets[0].id: sentence(str(ast.literal_eval(text.value))) for made, text in zip(body, body[1:])
            if isinstance(made, ast.Assign) and isinstance(made.targets[0], ast.Name) and isinstance(text, ast.Expr)}


def page() -> str:
    """The page."""
    return "".join([begun("Commands of the workbench", INTRO), "\n", words(), "\n## Options\n\n", options(),
                    "\n## What --json prints\n\n", answers(),
                    "\n## What --csv prints\n\n", records()])
