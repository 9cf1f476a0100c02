"""The printer: what is not written anew is written as it stands in the source, byte for byte."""
from __future__ import annotations

import bisect
from typing import NamedTuple, Optional

from .tree import Named, Node, Variable


class Printer:
    """A source, and what is written in place of some of its nodes."""

    def __init__(self, source: str):
        self.source = source
        self.anew: dict[Node, str] = {}
        self.names: dict[Named, str] = {}

    def write(self, node: Node, text: str) -> None:
        """The node becomes this text."""
        self.anew[node] = text

    def rename(self, node: Named, name: str) -> None:
        """What stands up to the end of the name of a literal becomes this text. Parentheses with nothing in them are left out in any case."""
        self.names[node] = name

    def is_anew(self, node: Node) -> bool:
        return node in self.anew

    def original(self, node: Node) -> str:
        return self.source[node.start : node.end]

    def text(self, node: Optional[Node]) -> str:
        """What is written for a node."""
        if node is None:
            return ""
        if node in self.anew:
            return self.anew[node]
        found, place = [], node.start
        if isinstance(node, Named):
            found.append(self.name_text(node))
            place = node.behind_name
        for part in node.parts():
            found.append(self.source[place : part.start])
            found.append(self.text(part))
            place = part.end
        found.append(self.source[place : node.end])
        return "".join(found)


    def name_text(self, node: Named) -> str:
        """What is written up to the end of a name. The grammar gives variables other names where their letters are none of jasonrun's."""
        if node in self.names:
            return self.names[node]
        text = self.source[node.start : node.name_end]
        return node.name if isinstance(node, Variable) and text.isidentifier() and text != node.name else text


class Piece(NamedTuple):
    """What is written for the places from `start` to before `end` of a source."""

    start: int
    end: int
    text: str


def faults_of_pieces(source: str, pieces: list[Piece], noted: set[int]) -> list[int]:
    """Where what no note names is not kept: the pieces have to be the whole source, one behind the other, and each in which no note stands
    is as it was."""
    faults, place, places = [], 0, sorted(noted)
    for piece in pieces:
        if piece.start != place:
            faults.append(place)
        place = piece.end
        first = bisect.bisect_left(places, piece.start)
        is_noted = first < len(places) and places[first] < max(piece.end, piece.start + 1)
        if piece.text != source[piece.start : piece.end] and not is_noted:
            faults.append(piece.start)
    if place != len(source):
        faults.append(place)
    return faults
