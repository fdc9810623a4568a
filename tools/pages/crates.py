"""The crates of the repository: their layers, what each stands on, and what the head of each says."""
import dataclasses
import functools
import pathlib
import re

ROOT = pathlib.Path(__file__).resolve().parent.parent.parent
CONTRACT = re.compile(r"^The contract that the crates? above uses?: *")


@dataclasses.dataclass(frozen=True)
class Crate:
    """A crate: its layer, the crates of the repository that its line of crates.txt names, and the paragraphs of its head."""
    name: str
    layer: str
    uses: frozenset[str]
    head: tuple[str, ...]

    @property
    def root(self) -> pathlib.Path:
        """The file with its head, from the root of the repository."""
        return root_of(self.name)

    @property
    def purpose(self) -> str:
        """What it does: the first paragraph of its head."""
        return self.head[0]

    @property
    def contract(self) -> str:
        """The contract that the crates above use, or nothing where its head has none."""
        for text, following in zip(self.head, (*self.head[1:], "")):
            if "contract that the crate" in text:
                items = re.sub(r"(^|(?<=\.)) ?- ", " ", following) if text.endswith(":") else ""
                return CONTRACT.sub("", f"{text} {items}".strip())
        return ""


@dataclasses.dataclass(frozen=True)
class Layer:
    """A layer: its name, what it is for, and its crates, in the order of crates.txt."""
    name: str
    purpose: str
    crates: tuple[Crate, ...]


def root_of(crate: str) -> pathlib.Path:
    """The file with the head of a crate, from the root of the repository: src/lib.rt, or src/main.rt of a program."""
    source = pathlib.Path("crates", crate, "src")
    return source / "lib.rt" if (ROOT / source / "lib.rt").exists() else source / "main.rt"


def head_of(crate: str) -> tuple[str, ...]:
    """The paragraphs of the head of a crate, each as one line. A link to a name is the name."""
    lines = [line[3:].strip() for line in (ROOT / root_of(crate)).read_text().splitlines() if line.startswith("//!")]
    text = re.sub(r"\[(`[^`]*`)\]", r"\1", "\n".join(lines))
    return tuple(" ".join(part.split()) for part in text.split("\n\n"))


@functools.cache
def layers() -> tuple[Layer, ...]:
    """The layers of crates.txt, the lowest first. A layer begins with `# NAME: WHAT IT IS FOR`."""
    lines = (ROOT / "crates.txt").read_text().splitlines()
    own = {line.partition(":")[0] for line in lines if line and line[0] != "#"}
    found: list[tuple[str, str, list[Crate]]] = []
    for line in lines:
        name, _, rest = line.partition(":")
        if line.startswith("# ") and rest:
            found.append((name[2:], rest.strip(), []))
        elif line and line[0] != "#":
            found[-1][2].append(Crate(name, found[-1][0], frozenset(rest.split()) & own, head_of(name)))
    return tuple(Layer(name, purpose, tuple(crates)) for name, purpose, crates in found)


@functools.cache
def crates() -> dict[str, Crate]:
    """The crates by their names, in the order of crates.txt."""
    return {crate.name: crate for layer in layers() for crate in layer.crates}


@functools.cache
def below(name: str) -> frozenset[str]:
    """All crates that a crate stands on, directly or not."""
    return frozenset().union(*({it} | below(it) for it in crates()[name].uses))


@functools.cache
def reduced() -> dict[str, list[str]]:
    """For each crate those that it stands on and through no other: the transitive reduction of the graph."""
    graph = {}
    for name, crate in crates().items():
        through = frozenset().union(*(below(it) for it in crate.uses))
        graph[name] = [it for it in crates() if it in crate.uses and it not in through]
    return graph


@functools.cache
def levels() -> dict[str, int]:
    """How far each crate is above the lowest ones, along the longest way down."""
    found: dict[str, int] = {}

    def level(name: str) -> int:
        if name not in found:
            found[name] = 1 + max((level(it) for it in crates()[name].uses), default=-1)
        return found[name]

    for name in crates():
        level(name)
    return found
