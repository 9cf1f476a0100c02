"""Functions in arithmetic. What jasonrun has as an internal action or a rule is asked before."""
from __future__ import annotations

from typing import TYPE_CHECKING

from .. import tree
from ..tree import bare
from .table import function, row

if TYPE_CHECKING:
    from ..clause import ClausePort


def asked(port: ClausePort, node: tree.Literal, question: str, is_rule: bool = False) -> None:
    """The function becomes a variable, for which the question is asked, a `%s` in it."""
    name = port.variable()
    question = question.replace("%s", name)
    port.ask_before(question, ("?" if is_rule else "") + question)
    port.write(node, name)
    port.note(node, f"a function in arithmetic is asked before: {question}", "function")


@function(".length/1")
@row(
    "`.length(L) + 1`, `.count(F)`, `math.abs max min sum`",
    "E",
    "asked before: `.length(L, V)`; in a formula `(.. & ..)`",
    tests="length count math",
)
def length(port: ClausePort, node: tree.Literal) -> None:
    port.term(node.arguments[0])
    asked(port, node, f".length({port.text(node.arguments[0])}, %s)")


@function(".count/1")
def count(port: ClausePort, node: tree.Literal) -> None:
    port.whole_formula(node.arguments[0])
    asked(port, node, f".count({port.text(node.arguments[0])}, %s)")


@function("math.max/2", "math.min/2")
def extreme(port: ClausePort, node: tree.Literal) -> None:
    for value in node.arguments:
        port.term(value)
    first, second = map(port.text, node.arguments)
    asked(port, node, f".{node.name.removeprefix('math.')}([{first}, {second}], %s)")


@function("math.abs/1", "math.sum/1")
def by_rule(port: ClausePort, node: tree.Literal) -> None:
    port.term(node.arguments[0])
    rule = port.library(node.name.removeprefix("math."))
    asked(port, node, f"{rule}({port.text(node.arguments[0])}, %s)", is_rule=True)


@function("math.floor/1", "math.ceil/1", "math.round/1")
@row("`math.floor(A / B)`", "D", "`(A div B)`", "below zero it rounds towards zero", tests="math")
def rounded(port: ClausePort, node: tree.Literal) -> None:
    inside = bare(node.arguments[0])
    if node.name == "math.floor" and isinstance(inside, tree.Arithmetic) and inside.sign == "/":
        port.term(inside.left)
        port.term(inside.right)
        port.write(node, f"({port.text(inside.left)} div {port.text(inside.right)})")
        port.note(node, "math.floor(X / Y) is X div Y, which rounds towards zero below it", "decimal")
        return
    port.term(inside)
    port.write(node, f"({port.text(inside)})")
