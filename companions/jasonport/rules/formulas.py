"""Formulas of contexts, rules and questions."""
from __future__ import annotations

from typing import TYPE_CHECKING

from .. import tree
from ..notes import Todo
from .actions import inner_action
from .names import literal
from .table import FORMULAS, put, row

if TYPE_CHECKING:
    from ..clause import ClausePort


@put(FORMULAS, tree.Relation)
@row("`=..`", "X", "", tests="univ_todo")
def relation(port: ClausePort, node: tree.Relation) -> None:
    if node.sign == "=..":
        raise Todo("univ", "=.. is not there", node)
    port.term(node.left)
    port.term(node.right)


@put(FORMULAS, tree.Literal)
def condition(port: ClausePort, node: tree.Literal) -> None:
    if node.is_inner:
        text = inner_action(port, node, in_context=True)
        if text is not None:
            port.write(node, text)
    elif not tree.is_truth(node):
        literal(port, node)


@put(FORMULAS, tree.Variable)
@row("a variable as an action, formula or belief, or with annotations", "X", "", tests="variables_todo")
def variable(port: ClausePort, node: tree.Variable) -> None:
    raise Todo("var", "a variable in place of a formula", node)
