"""Which variables of a clause stand where, and which are bound there."""
from __future__ import annotations

from typing import Optional

from . import tree
from .tree import Node, bare, uses, variables

PRINTS = (".print", ".println")
COLLECTS = (".findall", ".count")


class Scope:
    """The variables of a clause, and new ones."""

    def __init__(self, clause: tree.Clause):
        self.clause = clause
        self.uses = uses(clause)
        self.names = {use.name for use in self.uses}
        self.loops = [(loop.start, loop.end) for loop in tree.of_kind(clause, tree.Loop)]
        self.count = 0

    def numbered(self, start: str) -> str:
        """A new variable, with a number."""
        while True:
            self.count += 1
            name = f"{start}{self.count}"
            if name not in self.names:
                self.names.add(name)
                return name

    def new(self, name: str) -> str:
        """A new variable, of this name where it is free."""
        if name in self.names:
            return self.numbered(name)
        self.names.add(name)
        return name

    def is_gone(self, place: int, at: int) -> bool:
        """Whether what stands at a place is in a loop that is over at another: what a loop binds is not bound behind it."""
        return any(start <= place < end <= at for start, end in self.loops)

    def before(self, at: int) -> set[str]:
        """The variables that stand before a place."""
        return {use.name for use in self.uses if use.place < at and not self.is_gone(use.place, at)}

    def outside(self, node: Node) -> set[str]:
        """The variables that stand outside a node."""
        return {use.name for use in self.uses if not node.start <= use.place < node.end and not self.is_gone(use.place, node.start)}


def may_bind(formula: Node) -> list[str]:
    """The variables that a solution of a formula may bind, as often as they stand there."""
    formula = bare(formula)
    if isinstance(formula, tree.Not):
        return []
    if isinstance(formula, tree.Chain):
        return [name for member in formula.members for name in may_bind(member)]
    if isinstance(formula, tree.Literal) and formula.name in COLLECTS and formula.arguments:
        formula = formula.arguments[-1]
    return [use.name for use in uses(formula)]


def has_bound(formula: Node) -> set[str]:
    """The variables that are bound once a formula has held."""
    formula = bare(formula)
    if isinstance(formula, tree.Chain):
        return set().union(*map(has_bound, formula.members)) if formula.sign == "&" else set()
    if isinstance(formula, tree.Not) or tree.is_literal(formula, *PRINTS):
        return set()
    if tree.is_literal(formula, *COLLECTS):
        return set(variables(*formula.arguments[-1:]))
    return set(variables(formula))


def bound_in_rounds(loop: tree.Loop) -> set[str]:
    """The variables that a round of a loop may bind."""
    found: set[str] = set()
    for node in loop.walk():
        is_inner = isinstance(node, tree.Literal) and node.name[0] == "." and node.name not in (*PRINTS, ".broadcast")
        if is_inner or isinstance(node, tree.Item) and node.sign in ("!", "?"):
            found.update(variables(node))
        elif isinstance(node, tree.Relation) and node.sign == "=":
            sides = (bare(node.left), bare(node.right))
            found.update(variables(*(side for side in sides if isinstance(side, (tree.Named, tree.ListTerm)))))
        elif isinstance(node, (tree.If, tree.While)) or isinstance(node, tree.For) and node is not loop:
            found.update(may_bind(node.condition))
    return found


def surely_bound(clause: tree.Plan, statement: tree.Statement) -> set[str]:
    """The variables that are bound where a statement begins, whatever ran before."""
    found = has_bound(clause.context) if clause.context else set()
    if not clause.trigger.kind:
        found.update(variables(clause.trigger))
    body = clause.body
    while body is not None:
        around = next((item for item in body.items if item.start <= statement.start < item.end), None)
        for item in body.items:
            if item is around:
                break
            if isinstance(item, tree.Item) and item.sign in ("", "?"):
                found.update(has_bound(item.subject))
        body = None if around is statement else body_around(around, statement, found)
    return found


def body_around(outer: Optional[tree.Statement], statement: tree.Statement, found: set[str]) -> Optional[tree.Body]:
    """The body of the outer statement in which another stands; what is bound where it begins goes to those found."""
    if isinstance(outer, tree.Block):
        return outer.body
    if isinstance(outer, tree.Loop) and outer.body.start <= statement.start < outer.body.end:
        found.update(has_bound(outer.condition))
        return outer.body
    branch = outer
    while isinstance(branch, tree.If):
        if branch.then.start <= statement.start < branch.then.end:
            found.update(has_bound(branch.condition))
            return branch.then
        branch = branch.other
    return branch if isinstance(branch, tree.Body) else None
