"""What is told of a port: notes, and what is left to do."""
from __future__ import annotations

import bisect
import re
from dataclasses import dataclass
from typing import NamedTuple, Optional

from .tree import Node

# The codes of notes and todos. docs/PORT.md has them all.
CODES = frozenset(
    """action agents arith ask atom atomic below braces clock decimal directive env error errmsg focus for fork function ia if include inspect intend
    java kqml label library message meta missing mixed name ns order pattern plan project random range spelling string suspend syntax test univ var
    wait while world""".split()
)


class Todo(Exception):
    """What can't be written anew, and is left to do by hand. It is told at its node, else where it was met."""

    def __init__(self, code: str, text: str, node: Optional[Node] = None):
        super().__init__(text)
        self.code, self.text, self.node = code, text, node


class Note(NamedTuple):
    """A line of what is told. Notes are sorted by file and place."""

    file: str
    line: int
    column: int
    kind: str
    text: str
    code: str

    def __str__(self) -> str:
        return f"{self.file}:{self.line}:{self.column}: {self.kind}: {self.text} [{self.code}]"


@dataclass
class Page:
    """A file that is read: its name as it is told, its text, and the notes on it, which go to the list of all."""

    name: str
    text: str
    notes: list[Note]

    def __post_init__(self) -> None:
        self.line_starts = [0] + [match.end() for match in re.finditer("\n", self.text)]
        self.noted: set[int] = set()

    def place(self, at: int) -> tuple[int, int]:
        """Line and column, counted from 1, the column in bytes as jasonlook counts."""
        line = bisect.bisect_right(self.line_starts, at)
        return line, len(self.text[self.line_starts[line - 1] : at].encode("utf-8", "surrogatepass")) + 1

    def say(self, kind: str, at: int, text: str, code: str) -> None:
        assert code in CODES, code
        self.noted.add(at)
        self.notes.append(Note(self.name, *self.place(at), kind, text, code))

    def note(self, at: int, text: str, code: str) -> None:
        self.say("note", at, text, code)

    def todo(self, at: int, text: str, code: str) -> None:
        self.say("todo", at, text, code)
