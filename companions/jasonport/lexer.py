"""The tokens of Jason 3, each with its place."""
from __future__ import annotations

import re
from typing import NamedTuple

TOKEN = re.compile(
    r'''
 (?P<blank>[ \t\r\n]+|//[^\n]*|/\*.*?\*/)
|(?P<number>\d+(?:\.\d+)?(?:[eE][+-]?\d+)?)
|(?P<string>"""(?:.*?)"""|"(?:[^"\\\n]|\\.)*")
|(?P<variable>[A-Z_]\w*)
|(?P<atom>\.?[^\W\d_A-Z]\w*(?:\.[^\W\d]\w*)*|'[^'\n]*')
|(?P<sign>\|&\||\|\|\||=\.\.|\\==|<-|:-|::|<:|-\+|\+\+|--|\+<|\+>|!!|==|<=|>=|\*\*|[()\[\]{},;.:!?+\-*/&|@^~<>=\#])
''',
    re.X | re.S,
)


class Fault(Exception):
    """A text that can't be read, with the place where that shows."""

    def __init__(self, place: int, text: str):
        super().__init__(text)
        self.place, self.text = place, text


class Token(NamedTuple):
    """A token: `kind` is number, string, variable, atom, sign or end."""

    kind: str
    text: str
    start: int
    end: int


def unread(source: str, place: int) -> Fault:
    """Why no token begins at a place."""
    if source.startswith("/*", place):
        return Fault(place, "a comment is not closed")
    if source[place] in "\"'":
        return Fault(place, "a string or a quoted atom is not closed in its line")
    return Fault(place, "no token begins here")


def tokens(source: str) -> list[Token]:
    """The tokens of a text, and an end behind them."""
    found, place = [], 0
    while place < len(source):
        match = TOKEN.match(source, place)
        if not match or match.group() == "/" and source.startswith("/*", place):
            raise unread(source, place)
        if match.lastgroup != "blank":
            found.append(Token(match.lastgroup or "", match.group(), place, match.end()))
        place = match.end()
    found.append(Token("end", "", len(source), len(source)))
    return found
