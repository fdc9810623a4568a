"""The functions of `src/` with the definitions that their contracts cite."""
import dataclasses
import functools
import pathlib
import re

from pages.crates import ROOT, crates
from pages.page import link
from pages.specs import Key, Names

COMMENT_OR_TEXT = re.compile(r'//[^\n]*|"(?:\\.|[^"\\])*"|\'(?:\\.|[^\'\\])\'')
OPENING = re.compile(r"\bfn\s+(\w+)|\bimpl\b([^{;]*)\{|\btrait\s+(\w+)[^{;]*\{|\bghost\s+(\w+)\s*(?::[^={;]*)?=\s*\{")
CLAUSE = re.compile(r"\b(requires|ensures)\b\s*\w*\s*$")
EQUATION = re.compile(r"≡ \(?([\w.]+)")


@dataclasses.dataclass(frozen=True)
class Function:
    """A function, or what an `impl` says of its trait: its file from the root, its name and its lines. Then the definitions that
    are cited: by what it ensures, of these the ones with which an equation begins, and by what it requires."""
    file: pathlib.Path
    name: str
    line: int
    last: int
    ensures: frozenset[Key]
    equals: frozenset[Key]
    requires: frozenset[Key]

    @property
    def crate(self) -> str:
        """The crate that has it."""
        return self.file.parts[1]


def blanked(text: str) -> str:
    """A source in which comments and texts are spaces."""
    return COMMENT_OR_TEXT.sub(lambda found: re.sub(r"[^\n]", " ", found[0]), text)


def closing(text: str, at: int) -> int:
    """The place behind the bracket that closes the one at a place."""
    depth = 0
    for n in range(at, len(text)):
        if text[n] in "([{":
            depth += 1
        elif text[n] in ")]}":
            depth -= 1
            if depth == 0:
                return n + 1
    return len(text)


def clauses_from(text: str, at: int) -> tuple[dict[str, str], int]:
    """What a function whose name ends at a place ensures and requires, and the place behind its body."""
    clauses, begun, n = {"ensures": "", "requires": ""}, at, at
    while n < len(text):
        if text[n] in "([":
            n = closing(text, n)
        elif text[n] == ";":
            return clauses, n + 1
        elif text[n] == "{":
            end = closing(text, n)
            if not (clause := CLAUSE.search(text[begun:n])):
                return clauses, end
            clauses[clause[1]] += text[n + 1:end - 1] + "\n"
            begun = n = end
        else:
            n += 1
    return clauses, n


def owner_of(head: str) -> tuple[str, str]:
    """What the head of an `impl` is for, as a name, and the type whose calls it has."""
    head = re.sub(r"\bwhere\b.*", "", re.sub(r"^\s*<[^{]*?>\s+(?=\w)", " ", head), flags=re.DOTALL)
    trait, joined, kind = head.rpartition(" for ")
    name = re.match(r"[\s&]*(?:'\w+ )?([\w:]+)", kind)
    owner = name[1].rpartition(":")[2] if name else kind.strip()
    of = re.search(r"([\w]+)\s*(?:<.*>)?\s*$", trait, re.DOTALL)
    return (f"{of[1]} for {owner}" if joined and of else owner), owner


def functions_in(text: str, names: Names, file: pathlib.Path) -> list[Function]:
    """The functions of a source."""
    found, text, n, ends = [], blanked(text), 0, []

    def add(name: str, ensures: str, requires: str = "") -> None:
        equal = " ".join(EQUATION.findall(ensures))
        cited = [frozenset(names.cited(it)) for it in (ensures, equal, requires)]
        found.append(Function(file, name, text.count("\n", 0, opening.start()) + 1, text.count("\n", 0, n - 1) + 1, *cited))

    while opening := OPENING.search(text, n):
        while ends and opening.start() >= ends[-1][0]:
            ends.pop()
        method, head, trait, member = opening.groups()
        owner = ends[-1][1] if ends else ("", "")
        if method:
            clauses, n = clauses_from(text, opening.end())
            add(f"{owner[1]}::{method}" if owner[1] else method, **clauses)
        elif member:
            n = closing(text, opening.end() - 1)
            if owner[0]:
                add(owner[0], text[opening.end():n])
        else:
            n = opening.end()
            ends.append((closing(text, n - 1), owner_of(head) if head is not None else (trait, trait)))
    return found


@functools.cache
def functions() -> tuple[Function, ...]:
    """The functions of all crates, in the order of crates.txt."""
    found = []
    for crate in crates():
        for path in sorted((ROOT / "crates" / crate / "src").rglob("*.rt")):
            text = path.read_text()
            found += functions_in(text, Names(text), path.relative_to(ROOT))
    return tuple(found)


@functools.cache
def citing() -> dict[Key, list[Function]]:
    """For each definition the functions that ensure something by it, and then those that only require something by it."""
    found: dict[Key, list[Function]] = {}
    for it in functions():
        for key in it.ensures:
            found.setdefault(key, []).append(it)
    for it in functions():
        for key in it.requires - it.ensures:
            found.setdefault(key, []).append(it)
    return found


def linked(found: list[Function]) -> str:
    """Functions as links to their lines, file by file."""
    files = dict.fromkeys(it.file for it in found)
    return "; ".join(", ".join(link(f"`{it.name}`", it.file, it.line) for it in found if it.file == file)
                     + f" in {file.parts[1]}/{file.name}" for file in files)
