"""The map of crates: their layers, the picture, and for each crate what it does, what it stands on and its contract."""
from pages.crates import Crate, layers, reduced
from pages.page import begun, link, sentence, table

INTRO = """A crate stands on its own layer and on lower ones. [ARCHITECTURE.md](ARCHITECTURE.md) says why the layers are as
they are, and [DEFINITIONS.md](DEFINITIONS.md) has each crate's definitions.

![A box for each crate; a line leads down to each crate that it stands on and through no other.](crates.svg)
"""


def row(crate: Crate) -> tuple[str, ...]:
    """The row of a crate."""
    uses = ", ".join(f"`{name}`" for name in reduced()[crate.name])
    return link(f"`{crate.name}`", crate.root), crate.purpose, uses, sentence(crate.contract)


def crate_map() -> str:
    """The page."""
    edges = sum(map(len, reduced().values()))
    named = sum(len(crate.uses) for layer in layers() for crate in layer.crates)
    parts = [begun("The crates", INTRO),
             f"\nOf the {named} uses in `crates.txt` the picture and the tables have the {edges} from which the others follow. The "
             "contract of a crate is the one that the crates above use; the program's is in [THEOREM.md](THEOREM.md).\n"]
    for layer in layers():
        parts.append(f"\n## {layer.name.capitalize()}\n\n{layer.purpose[0].upper()}{layer.purpose[1:]}.\n\n"
                     + table(("Crate", "What it does", "Stands on", "Contract"), map(row, layer.crates)))
    return "".join(parts)
