"""The tokens of a text, each with its place."""
import re
from typing import NamedTuple

from .command import FAULTY, Ended

KEYWORDS = {"true", "erase", "forall", "exists", "is", "MODULE", "LOCAL", "LINEAR"}
TOKEN = re.compile(
    r"(?P<blank>[ \t\r\n]+|%[^\n]*)"
    r"|(?P<name>[a-z][A-Za-z0-9_]*)"
    r"|(?P<variable>[A-Z][A-Za-z0-9_]*|_[A-Za-z0-9_]+)"
    r"|(?P<any>_)"
    r"|(?P<number>-?[0-9]+)"
    r"|(?P<sign>-->|-o|::|:-|<=|=>|=<|[.,&;(){}\\<+*-])"
)


class Token(NamedTuple):
    """A token: what it is, how it is spelled, where it begins, counted from 1, and in which text."""

    kind: str
    text: str
    line: int
    column: int
    source: str

    @property
    def place(self):
        return f"{self.source}:{self.line}:{self.column}"


def tokens_of(name, text):
    """All tokens of a text with a character for each byte, and one for its end."""
    found = []
    at, line, begun = 0, 1, 0
    while at < len(text):
        token = TOKEN.match(text, at)
        if token is None:
            raise Ended(FAULTY, f"{name}:{line}:{at - begun + 1} has a byte that begins no token")
        kind, spelling = token.lastgroup, token.group()
        if kind == "blank":
            if breaks := spelling.count("\n"):
                line += breaks
                begun = at + spelling.rindex("\n") + 1
        else:
            found.append(Token("keyword" if spelling in KEYWORDS else kind, spelling, line, at - begun + 1, name))
        at = token.end()
    found.append(Token("end", "", line, at - begun + 1, name))
    return found
