"""The texts that definitions of `specs/` print, as patterns such as `FILE record N: bad COLUMN`.

A definition of a text is one equation for each case, over `codes "TEXT"`, other such definitions, and `◌++◌`. What a case is
given becomes a word in capitals.
"""
import re
from collections.abc import Iterator

from pages.specs import Definition, Names, definitions

TOKEN = re.compile(r'"(?:\\.|[^"\\])*"|\+\+|∷|[()\[\]]|[^\s()\[\]"]+')
PLACES = {"number": "N", "paper": "FILE", "s": "TRIP", "i": "TRIP", "j": "TRIP", "sum": "MINUTES", "shown": "MINUTES"}
MANY = 4


def equations(it: Definition) -> list[tuple[str, str]]:
    """The equations of a definition: what stands before `=` behind the name, and what stands after it."""
    parts = re.split(rf"(?m)^\s*{re.escape(it.name)}(?=\s)", it.text.partition("\n")[2])
    halves = [re.split(r"\s=\s", part, maxsplit=1) for part in parts if part.strip()]
    return [(left.strip(), right.strip()) for left, right in halves]


def place_of(word: str) -> str:
    """The word in capitals that stands for what a case is given."""
    return PLACES.get(word, word.rpartition(".")[2].upper())


class Printer:
    """Reads the expressions of one definition."""

    def __init__(self, it: Definition, names: Names, papers: dict[str, str]) -> None:
        self.it, self.names, self.papers = it, names, papers

    def of(self, expression: str, given: dict[str, str]) -> str:
        """The pattern of an expression, in which these words stand for patterns."""
        return self.joined(iter(TOKEN.findall(expression)), given)

    def joined(self, tokens: Iterator[str], given: dict[str, str]) -> str:
        """The pattern up to the closing bracket of an expression."""
        found, call = "", []
        for token in tokens:
            if token in (")", "]"):
                break
            if token == "++":
                found, call = found + self.called(call, given), []
            elif token == "∷":
                call = []
            elif token in ("(", "["):
                call.append(("text", self.joined(tokens, given)))
            elif call and token.startswith("."):
                call = [("text", "TRIP")]
            else:
                call.append(("word", token))
        return found + self.called(call, given)

    def called(self, call: list[tuple[str, str]], given: dict[str, str]) -> str:
        """The pattern of a name that is applied to others."""
        if not call or call[0][1].isdigit():
            return ""
        (kind, head), rest = call[0], call[1:]
        texts = [text if form == "text" else given.get(text, self.papers.get(text, place_of(text))) for form, text in rest]
        if kind == "text":
            return head
        if head == "codes":
            return rest[0][1].strip('"')
        if head in ("decimal", "signed_text", "file_name_of"):
            return texts[0]
        if not rest:
            return given.get(head, place_of(head))
        known = definitions().get((*self.it.key[:2], head)) or definitions().get(self.names.single.get(head, self.it.key))
        cases = equations(known) if known and known != self.it else []
        if len(cases) == 1:
            return Printer(known, self.names, self.papers).of(cases[0][1], dict(zip(cases[0][0].split(), texts)))
        # Few fixed texts are named, and of many the kind: `column_name_of` is COLUMN.
        fixed = re.findall(r'^codes "(\w+)"$', "\n".join(right for _, right in cases), re.MULTILINE)
        return "|".join(fixed) if 0 < len(fixed) == len(cases) < MANY else head.partition("_")[0].upper()


def printed(it: Definition, names: Names, papers: dict[str, str]) -> dict[str, str]:
    """For each case of a definition the pattern of what is printed."""
    found = {}
    for left, right in equations(it):
        case = re.findall(r"[\w.]+", left[left.rfind("("):] if "(" in left else left)
        case = [word for word in case if word.rpartition(".")[2][:1].isupper()] or case[-1:]
        text = Printer(it, names, papers).of(right, {})
        if text:
            found[case[0].rpartition(".")[2]] = text
    return found
