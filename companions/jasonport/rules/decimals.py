"""Decimals: places whose numbers are compared, added or made the same have one unit, over all sources. A class of places with a decimal, and
without a product, a quotient or another use that would show the unit, gets whole numbers of its smallest unit."""
from __future__ import annotations

from typing import TYPE_CHECKING, Hashable, Iterable, Optional

from .. import tree
from ..tree import Node
from .table import row

if TYPE_CHECKING:
    from ..source import Source

COLLECTING = (".findall", ".count", ".print", ".println", ".concat")
KEEPING = (".send", ".broadcast", ".abolish", ".member", ".drop_desire", ".drop_intention", ".succeed_goal")
RANDOM_DIGITS = 3
MOST_DIGITS = 9
Place = Hashable


def digits(number: tree.Number) -> Optional[int]:
    """How many digits stand behind the dot; none where the number has an exponent."""
    if "e" in number.text.lower():
        return None
    return len(number.text.partition(".")[2].rstrip("0"))


class Units:
    """Classes of places. A place is an argument of a functor, a variable of a clause, or a number for itself."""

    def __init__(self) -> None:
        self.above: dict[Place, Place] = {}
        self.numbers: dict[Place, list[tree.Number]] = {}
        self.unfit: set[Place] = set()
        self.random: set[Place] = set()
        self.drawn: list[tuple[Place, str]] = []

    # ---- Classes

    def find(self, place: Place) -> Place:
        self.above.setdefault(place, place)
        while self.above[place] != place:
            self.above[place] = self.above[self.above[place]]
            place = self.above[place]
        return place

    def join(self, one: Optional[Place], other: Optional[Place]) -> Optional[Place]:
        if one is None or other is None:
            return one if other is None else other
        one, other = self.find(one), self.find(other)
        if one != other:
            self.above[other] = one
            self.numbers.setdefault(one, []).extend(self.numbers.pop(other, []))
            for marked in (self.unfit, self.random):
                if other in marked:
                    marked.add(one)
        return one

    def spoil(self, place: Optional[Place]) -> None:
        if place is not None:
            self.unfit.add(self.find(place))

    # ---- What the sources say

    def look(self, node: Node, clause: Place, place: Optional[Place] = None) -> Optional[Place]:
        """Takes in a node of a clause, which stands at a place where it is an argument; the place of its numbers, if it has one."""
        if isinstance(node, tree.Variable):
            return self.join((clause, node.name), place) if node.name != "_" else place
        if isinstance(node, tree.Number):
            found = self.find(place if place is not None else (clause, node.start))
            self.numbers.setdefault(found, []).append(node)
            return found
        if type(node) in (tree.Paren, tree.Negative, tree.Positive):
            return self.look(node.inside, clause, place)
        if isinstance(node, tree.Arithmetic):
            return self.look_at_arithmetic(node, clause, place)
        if isinstance(node, tree.Relation):
            return self.join(self.look(node.left, clause), self.look(node.right, clause))
        if isinstance(node, tree.Literal):
            self.look_at_literal(node, clause)
        else:
            for part in node.parts():
                self.look(part, clause)
        return None

    def look_at_arithmetic(self, node: tree.Arithmetic, clause: Place, place: Optional[Place]) -> Optional[Place]:
        if node.sign in ("+", "-"):
            return self.join(self.look(node.left, clause, place), self.look(node.right, clause, place))
        for side in node.parts():
            self.spoil(self.look(side, clause))
        self.spoil(place)
        return place

    def look_at_literal(self, node: tree.Literal, clause: Place) -> None:
        if node.name == ".random" and len(node.arguments) == 1 and isinstance(node.arguments[0], tree.Variable):
            name = node.arguments[0].name
            self.random.add(self.find((clause, name)))
            self.drawn.append((clause, name))
            return
        for count, argument in enumerate(node.arguments):
            if node.name in COLLECTING or isinstance(argument, (tree.Chain, tree.Not, tree.Relation)):
                self.look(argument, clause)
            elif node.is_inner:
                found = self.look(argument, clause)
                if node.name not in KEEPING:
                    self.spoil(found)
            else:
                self.look(argument, clause, (node.name, len(node.arguments), count))
        if node.annotations:
            self.look(node.annotations, clause)

    # ---- What becomes of them

    def scaled(self) -> Iterable[tuple[Place, int, list[tree.Number]]]:
        """The classes that get a unit: how many digits behind the dot it has, and the numbers."""
        for place, numbers in self.numbers.items():
            is_random = place in self.random
            decimals = [it for it in numbers if not it.text.isdigit()]
            if self.find(place) in self.unfit or not decimals and not is_random:
                continue
            behind = [digits(it) for it in decimals] + [RANDOM_DIGITS] * is_random
            if None not in behind and max(behind) <= MOST_DIGITS:
                yield place, max(behind), numbers

    def drawn_at(self, place: Place) -> Iterable[tuple[Place, str]]:
        return (it for it in self.drawn if self.find(it) == place)


def in_unit(number: tree.Number, behind: int) -> str:
    whole, _, fraction = number.text.partition(".")
    return str(int(whole + fraction.ljust(behind, "0")[:behind]))


@row(
    "decimals that are compared, added, handed on",
    "D",
    "one unit for all that meet, over the whole project: all numbers of a class times 10^k",
    "printed so",
    tests="decimals",
)
def choose_units(sources: list[Source]) -> dict[tuple[Place, str], int]:
    """Writes the numbers of all sources that get a unit; with how many digits each variable is drawn that meets such."""
    units = Units()
    for source in sources:
        for clause in source.clauses:
            for part in clause.parts():
                units.look(part, (source.page.name, clause.start))
    owners = {number: source for source in sources for number in source.of_kind(tree.Number)}
    drawn = {}
    for place, behind, numbers in units.scaled():
        for number in numbers:
            owners[number].printer.write(number, in_unit(number, behind))
        first = next((it for it in numbers if not it.text.isdigit()), None)
        if first:
            functor = f": {place[0]}/{place[1]}" if isinstance(place, tuple) and len(place) == 3 else ""
            text = f"decimals are whole numbers of 1/{10**behind} here, and are so printed{functor}"
            owners[first].page.note(first.start, text, "decimal")
        drawn.update((it, behind) for it in units.drawn_at(place))
    return drawn
