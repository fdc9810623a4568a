"""The glossary: each file of specs/ with its head, and each public definition with the comment above it."""
from pages.crates import layers
from pages.page import begun, cell, link, table
from pages.specs import Spec, specs

INTRO = """An entry is a definition with the comment above it. Names that share a comment share an entry, and a comment may go
on from the one before it. [RULES.md](RULES.md) finds a rule, and [CRATES.md](CRATES.md) a crate.

- `Is…`, `Are…` and `Has…` state a fact, and `is_…` and `has_…` test one. `with_…` changes a part or adds one. `columns_in` is
  where the columns of a file are. A `…View`, `seen` and `…_seen` are what a contract sees of a value.
- A law is the contract of a call `…_law`, mostly in `src/laws.rt`. `…_asked` is what a command asks.
"""


def words() -> str:
    """The words of the house, each with the field's and the definition that has it."""
    rows = [(here, field, link(f"`{it.name}`", it.file)) for spec in specs() for it in spec.definitions for here, field in it.words]
    return "\n## Words\n\n" + table(("Here", "In the field", "Definition"), rows)


def entries(spec: Spec) -> str:
    """The entries of a file."""
    found: list[tuple[list[str], str]] = []
    for it in spec.definitions:
        if it.public and (it.comment or not found):
            found.append(([it.name], it.comment))
        elif it.public:
            found[-1][0].append(it.name)
    return "".join(f"- {', '.join(f'`{name}`' for name in names)}{': ' if comment else ''}{comment}\n" for names, comment in found)


def glossary() -> str:
    """The page."""
    parts = [begun("Definitions", INTRO), words()]
    for layer in layers():
        parts.append(f"\n## {layer.name.capitalize()}\n")
        for crate in layer.crates:
            own = [spec for spec in specs() if spec.crate == crate.name]
            parts.append(f"\n### `{crate.name}`\n\n{cell(crate.purpose)}\n")
            parts += [f"\n{link(f'`{spec.name}`', spec.file)}: {spec.head}\n\n{entries(spec)}" for spec in own]
    return "".join(parts)
