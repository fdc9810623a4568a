"""The prose of a document: its words and its sentences, without code and tables' frames."""
import re

from pages.mentions import FENCE

LONGEST = 35
JOINT = "\u2423"
"""What stands for a space in a piece of code."""
ENDS = re.compile(r"(?<=[.?!])[\"')*]*\s+(?=[\"'(*`]*[A-Z0-9`\[])")


def words(text: str) -> int:
    """The words of a document, all that stands between spaces, as `wc -w` counts them."""
    return len(text.split())


def plain(text: str) -> str:
    """A text in which a link is its words, and a piece of code is one word."""
    text = re.sub(r"!?\[((?:[^\[\]`]|`[^`]*`)*)\]\([^)]*\)", r"\1", text)
    return re.sub(r"`[^`\n]*`", lambda code: code[0].replace(" ", JOINT), text).replace("**", "")


def parts(text: str) -> list[str]:
    """The paragraphs, the items of lists, the cells and the titles of a document. What it quotes is left out."""
    found: list[str] = [""]
    for line in plain(FENCE.sub("\n", text)).splitlines():
        line = line.strip()
        if line.startswith(">"):
            found += [""]
        elif line.startswith("|"):
            found += [*re.split(r"(?<!\\)\|", line), ""]
        elif not line or re.match(r"([-*]|\d+\.|#+)\s", line):
            found += [re.sub(r"^([-*]|\d+\.|#+)\s+", "", line)]
        else:
            found[-1] += " " + line
    return [it.strip() for it in found if it.strip()]


def sentences(text: str) -> list[str]:
    """The sentences of a document."""
    return [it for part in parts(text) for it in ENDS.split(part)]


def long_sentences(text: str) -> list[str]:
    """The sentences with more words than a reader follows."""
    return [it.replace(JOINT, " ") for it in sentences(text) if len(re.findall(r"\S*\w\S*", it)) > LONGEST]
