"""What the documents name: each file, each definition and each call must be there."""
import functools
import pathlib
import re
import subprocess
from collections.abc import Iterator

from pages.contracts import blanked
from pages.crates import ROOT, crates, head_of
from pages.page import anchor

FENCE = re.compile(r"(?ms)^ *(```+|~~~+).*?^ *\1 *$")
LINK = re.compile(r"(?<!!)\[((?:[^\[\]`]|`[^`]*`)*)\]\(([^)\s]*)\)")
SPAN = re.compile(r"`([^`\n]+)`")
NAME = re.compile(r"[^\W\d]\w*(?:::[^\W\d]\w*)*(?:\(\))?")
FILE = re.compile(r"[\w.*-]+(?:/[\w.*-]+)*/?")
ENDINGS = (".rt", ".antt", ".py", ".js", ".edit", ".case", ".css", ".html", ".sh")
FOLDERS = ("crates", "tools", "docs", "workbench", "examples", "cases", "prebuilt", "src", "specs", "proofs", "must-fail", "edits",
           "page")
BASES = ("", "crates", "workbench", "workbench/desk", "docs", "tools")
SOURCES = ("crates", "workbench", "tools", "examples", "cases", "desk", "blockdesk", "crates.txt", "prebuilt/PROVENANCE", ".ci")
COMMENT = {".antt": re.compile(r"(?m)--.*$")}


@functools.cache
def tracked() -> tuple[pathlib.Path, ...]:
    """The files that git knows, from the root."""
    words = ["git", "ls-files", "-z", "--cached", "--others", "--exclude-standard"]
    said = subprocess.run(words, cwd=ROOT, check=True, stdout=subprocess.PIPE).stdout.decode()
    return tuple(pathlib.Path(name) for name in said.split("\0") if name and (ROOT / name).is_file())


def documents() -> list[pathlib.Path]:
    """The documents, from the root."""
    return [it for it in tracked() if it.suffix == ".md" and it.parts[0] in ("docs", "README.md", "examples", "tools")]


@functools.cache
def paths() -> frozenset[str]:
    """The files and folders, from the root."""
    return frozenset(it.as_posix() for path in tracked() for it in (path, *path.parents))


@functools.cache
def is_there(path: str) -> bool:
    """Whether a path, which may have `*`, is one of the repository, or of a crate, or of the workbench."""
    path = path.strip("/")
    whole = [f"{base}/{path}" if base else path for base in (*BASES, *(f"crates/{crate}" for crate in crates()))]
    if "*" not in path:
        return any(it in paths() for it in whole)
    shapes = [re.compile(re.escape(it).replace(r"\*", "[^/]*")) for it in whole]
    return any(shape.fullmatch(it) for shape in shapes for it in paths())


@functools.cache
def is_file_name(name: str) -> bool:
    """Whether a file has that name, which may have `*`."""
    shape = re.compile(re.escape(name).replace(r"\*", ".*"))
    return any(shape.fullmatch(it.name) for it in tracked())


@functools.cache
def words() -> frozenset[str]:
    """The words of the sources. Those that stand in a comment alone do not count."""
    found = set(crates())
    for path in tracked():
        if path.parts[0] in SOURCES or path.as_posix() in SOURCES:
            text = (ROOT / path).read_text(errors="replace")
            if path.suffix == ".rt":
                text = blanked(text) + " ".join(re.findall(r'"[^"\n]*"', text))
            elif path.suffix in COMMENT:
                text = COMMENT[path.suffix].sub("", text)
            found.update(re.findall(r"\w+", text))
            found.add(path.stem)
    return frozenset(found)


@functools.cache
def anchors(path: pathlib.Path) -> frozenset[str]:
    """The anchors of a document."""
    text = FENCE.sub("", (ROOT / path).read_text())
    return frozenset(anchor(title) for title in re.findall(r"(?m)^#+ (.*)$", text))


def is_name(span: str) -> bool:
    """Whether a span of code is a name of the sources: of several words, or a path of names, or a call."""
    return bool(NAME.fullmatch(span)) and ("_" in span.strip("_") or "::" in span or bool(re.search(r"[a-z][A-Z]", span)))


def is_word(word: str, allowed: frozenset[str]) -> bool:
    """Whether a word is one of the sources. A number at its end is a size, as that of a generated feed."""
    return any(it in words() or it in allowed for it in (word, re.sub(r"(_\d+)+$", "", word)))


def wrong_span(span: str, allowed: frozenset[str]) -> str | None:
    """What is wrong about a span of code."""
    if FILE.fullmatch(span) and not re.search(r"(^|[/_.])[A-Z]{2,}([/_.]|$)", span):
        if "/" in span and (span.split("/")[0] in FOLDERS or span.endswith(ENDINGS)):
            return None if is_there(span) else f"no file {span}"
        if "/" not in span and span.endswith(ENDINGS) and not span.startswith("."):
            return None if is_file_name(span) else f"no file {span}"
    if is_name(span) and not all(is_word(it, allowed) for it in re.findall(r"\w+", span)):
        return f"nothing is called {span}"
    return None


def wrong_link(document: pathlib.Path, text: str, target: str) -> str | None:
    """What is wrong about a link."""
    if re.match(r"\w+:", target):
        return None
    path, _, part = target.partition("#")
    if not path:
        return None if part in anchors(document) else f"no section #{part}"
    file = (ROOT / document.parent / path).resolve()
    if not file.exists() or not file.is_relative_to(ROOT):
        return f"no file {path}"
    file = file.relative_to(ROOT)
    if part and file.suffix == ".md" and part not in anchors(file):
        return f"{path} has no section #{part}"
    name = text.strip("`")
    if file.suffix in ENDINGS and text == f"`{name}`" and NAME.fullmatch(name):
        last = re.findall(r"\w+", name)[-1]
        if not re.search(rf"\b{last}\b", (ROOT / file).read_text()) and last not in (file.stem, *file.parts):
            return f"{path} has no {name}"
    return None


def wrong_in(document: pathlib.Path) -> Iterator[str]:
    """What a document names that is not there."""
    whole = (ROOT / document).read_text()
    allowed = frozenset(word for it in FENCE.finditer(whole) for word in re.findall(r"\w+", it[0]))
    text = FENCE.sub("", whole)
    for found in LINK.finditer(text):
        wrong = wrong_link(document, found[1], found[2])
        if wrong:
            yield f"{document}: {wrong}"
    for span in dict.fromkeys(SPAN.findall(text)):
        wrong = wrong_span(span, allowed)
        if wrong:
            yield f"{document}: {wrong}"


def wrong_in_head(crate: str) -> Iterator[str]:
    """What the head of a crate names that is not there."""
    for span in dict.fromkeys(SPAN.findall("\n".join(head_of(crate)))):
        wrong = wrong_span(span, frozenset())
        if wrong:
            yield f"the head of {crate}: {wrong}"
