"""The definitions of `specs/`, with the comments above them, and the rules and the words that these comments tag.

A definition's comment may begin with lines of these two forms:

    -- rule: the layover of a trip
    -- word: blocking = vehicle schedule
"""
import dataclasses
import functools
import pathlib
import re

from pages.crates import ROOT, crates

DEFINED = re.compile(r" *(?:(?:abbrev|unfoldable) (?P<pub>pub )?|(?P<pub_record>pub )?record )(?P<name>[^\s:(]+)")
IMPORT = re.compile(r"\buse Rattle\.(\w+)\.specs\.(\w+)(?:\.\{([^}]*)\}| as (\w+))")
WORD = re.compile(r"(?<![\w.])([^\W\d][\w']*)(?:\.([^\W\d][\w']*))?")

Key = tuple[str, str, str]
"""A definition by its crate, its file of specs/ without the ending, and its name."""


@dataclasses.dataclass(frozen=True)
class Definition:
    """A definition: its line, whether others may name it, its comment without tags, its tags, and its text."""
    key: Key
    line: int
    public: bool
    comment: str
    rules: tuple[str, ...]
    words: tuple[tuple[str, str], ...]
    text: str

    @property
    def name(self) -> str:
        """Its name."""
        return self.key[2]

    @property
    def file(self) -> pathlib.Path:
        """The file that has it, from the root of the repository."""
        return pathlib.Path("crates", self.key[0], "specs", f"{self.key[1]}.antt")


@dataclasses.dataclass(frozen=True)
class Spec:
    """A file of specs/: its crate, its name without the ending, the comment that it opens with, and its definitions."""
    crate: str
    name: str
    head: str
    definitions: tuple[Definition, ...]

    @property
    def file(self) -> pathlib.Path:
        """The file, from the root of the repository."""
        return pathlib.Path("crates", self.crate, "specs", f"{self.name}.antt")


class Names:
    """What the words of a file mean: the definitions that it imports, and its own."""

    def __init__(self, text: str, own: dict[str, Key] | None = None) -> None:
        self.single: dict[str, Key] = {}
        self.whole: dict[str, tuple[str, str]] = {}
        for crate, module, names, alias in IMPORT.findall(text):
            if alias:
                self.whole[alias] = crate, module
            for entry in filter(None, (it.strip() for it in names.split(","))):
                name, _, other = entry.partition(" as ")
                self.single[other.strip() or name] = crate, module, name
        self.single.update(own or {})

    def cited(self, text: str) -> set[Key]:
        """The definitions that a text names."""
        found = set()
        for word, part in WORD.findall(text):
            if word in self.whole and part:
                found.add((*self.whole[word], part))
            elif word in self.single:
                found.add(self.single[word])
        return found


def plain(lines: list[str]) -> str:
    """Lines of a comment as one."""
    return " ".join(" ".join(it.strip().removeprefix("--").strip() for it in lines).split())


def read_spec(crate: str, path: pathlib.Path) -> Spec:
    """A file of specs/."""
    lines = path.read_text().splitlines()
    head = next((n for n, line in enumerate(lines) if not line.startswith("--")), len(lines))
    starts = [(n, found) for n, line in enumerate(lines) if (found := DEFINED.match(line))]
    definitions = []
    for at, (n, found) in enumerate(starts):
        end = starts[at + 1][0] if at + 1 < len(starts) else len(lines)
        top = n
        while top > head and lines[top - 1].strip().startswith(("--", "infix")):
            top -= 1
        comment = [it.strip() for it in lines[top:n] if it.strip().startswith("--")]
        rules = tuple(it.removeprefix("-- rule: ") for it in comment if it.startswith("-- rule: "))
        words = tuple(it.removeprefix("-- word: ") for it in comment if it.startswith("-- word: "))
        rest = [it for it in comment if not it.startswith(("-- rule: ", "-- word: "))]
        body = "\n".join(it for it in lines[n:end] if not it.strip().startswith("--"))
        definitions.append(Definition((crate, path.stem, found["name"]), n + 1, bool(found["pub"] or found["pub_record"]), plain(rest),
                                      rules, tuple((here, field) for here, _, field in (it.partition(" = ") for it in words)), body))
    return Spec(crate, path.stem, plain(lines[:head]), tuple(definitions))


@functools.cache
def specs() -> tuple[Spec, ...]:
    """The files of specs/, crate by crate, but those that only list the others."""
    return tuple(read_spec(crate, path) for crate in crates() for path in sorted((ROOT / "crates" / crate / "specs").glob("*.antt"))
                 if path.stem != "Lib")


@functools.cache
def definitions() -> dict[Key, Definition]:
    """All definitions."""
    return {it.key: it for spec in specs() for it in spec.definitions}


@functools.cache
def users() -> dict[Key, list[Key]]:
    """For each definition those that name it."""
    found: dict[Key, list[Key]] = {}
    for spec in specs():
        names = Names((ROOT / spec.file).read_text(), {it.name: it.key for it in spec.definitions})
        for it in spec.definitions:
            for cited in sorted(names.cited(it.text) - {it.key}):
                found.setdefault(cited, []).append(it.key)
    return found
