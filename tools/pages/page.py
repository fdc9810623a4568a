"""What all pages have alike: the line at their top, links, tables and anchors."""
import pathlib
import re
from collections.abc import Iterable

MADE = "Made by `tools/book` from the sources; change those, not this page."


def paragraphs(text: str) -> str:
    """A text in which a paragraph or an item of a list is one line."""
    return re.sub(r"(?<!\n)\n *(?![\n\-])", " ", text.strip())


def begun(title: str, text: str) -> str:
    """The top of a page."""
    return f"# {title}\n\n{MADE} {paragraphs(text)}\n"


def link(text: str, file: pathlib.Path, line: int = 0) -> str:
    """A link from a page of docs/ to a file, which is given from the root of the repository, or to a line of it."""
    return f"[{text}](../{file.as_posix()}{f'#L{line}' if line else ''})"


def cell(text: str) -> str:
    """A text in a cell of a table."""
    return " ".join(text.split()).replace("|", "\\|")


def table(head: Iterable[str], rows: Iterable[Iterable[str]]) -> str:
    """A table."""
    head = list(head)
    lines = [head, ["---"] * len(head), *rows]
    return "".join("|" + "".join(f" {cell(it)} |" if it else " |" for it in line) + "\n" for line in lines)


def sentence(text: str) -> str:
    """A text with a capital letter at its front and a full stop at its end."""
    text = text.strip()
    return text if not text else text[0].upper() + text[1:] + ("" if text[-1] in ".:!?" else ".")


def anchor(title: str) -> str:
    """The anchor that a title has on a page."""
    plain = re.sub(r"\[([^\]]*)\]\([^)]*\)", r"\1", title).strip().lower()
    return re.sub(r"[^\w\- ]", "", plain).replace(" ", "-")
