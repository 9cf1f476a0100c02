"""Terms: numbers, strings, arithmetic, literals."""
from __future__ import annotations

import re
from typing import TYPE_CHECKING, Optional

from .. import tree
from ..notes import Todo
from ..tree import Node, bare
from ..words import quoted
from .names import rename
from .table import FUNCTIONS, TERMS, put, row

if TYPE_CHECKING:
    from ..clause import ClausePort

LARGEST = 9223372036854775807
KEPT_ESCAPES = ('"', "\\", "n", "t")
NO_ESCAPES = ("r", "b", "f")


@put(TERMS, tree.Number)
def number(port: ClausePort, node: tree.Number, in_head: bool) -> None:
    if not node.text.isdigit():
        raise Todo("decimal", f"the decimal {node.text}: take a smaller unit", node)
    if int(node.text) > LARGEST:
        raise Todo("decimal", "a number of more than 64 bits", node)


@put(TERMS, tree.String)
def string(port: ClausePort, node: tree.String, in_head: bool) -> None:
    """A text block becomes a string; of the signs behind a backslash jasonrun has four."""
    if node.text.startswith('"""'):
        port.write(node, quoted(node.text[3:-3]))
        return

    def escape(match: re.Match) -> str:
        sign = match.group(1)
        return match.group() if sign in KEPT_ESCAPES else "" if sign in NO_ESCAPES else sign

    inside = re.sub(r"\\(.)", escape, node.text[1:-1], flags=re.S).replace("\t", "\\t")
    if inside != node.text[1:-1]:
        port.write(node, f'"{inside}"')


@put(TERMS, tree.Variable)
def variable(port: ClausePort, node: tree.Variable, in_head: bool) -> None:
    if node.annotations or node.namespace is not None or node.negated:
        raise Todo("var", "annotations, a namespace or ~ at a variable", node)


@put(TERMS, tree.ListTerm)
def list_term(port: ClausePort, node: tree.ListTerm, in_head: bool) -> None:
    for part in node.parts():
        port.term(part, in_head)


@put(TERMS, tree.Paren)
def parenthesis(port: ClausePort, node: tree.Paren, in_head: bool) -> None:
    port.term(node.inside, in_head)


@put(TERMS, tree.Positive)
def positive(port: ClausePort, node: tree.Positive, in_head: bool) -> None:
    port.term(node.inside, in_head)
    port.write(node, port.text(node.inside))


@put(TERMS, tree.Negative)
def negative(port: ClausePort, node: tree.Negative, in_head: bool) -> None:
    if in_head and not isinstance(node.inside, tree.Number):
        in_head_calculated(port, node)
    else:
        port.term(node.inside, in_head)


@put(TERMS, tree.Literal)
def literal(port: ClausePort, node: tree.Literal, in_head: bool) -> None:
    if node.name[0] == "." or node.name.startswith("math."):
        called(port, node)
    elif not tree.is_truth(node):
        rename(port, node, in_namespace=False)
        for part in node.parts():
            port.term(part, in_head)


@put(TERMS, tree.Braces)
@row("a plan, a rule or a body in braces as a term", "X", "", tests="braces_todo")
def braces(port: ClausePort, node: tree.Braces, in_head: bool) -> None:
    raise Todo("braces", "a plan or a body as a term", node)


def called(port: ClausePort, node: tree.Literal) -> None:
    """A function in arithmetic."""
    rule = FUNCTIONS.get(node.functor)
    if rule is None:
        raise Todo("function", f"the function {node.functor}", node)
    rule(port, node)


# ---- Arithmetic


@put(TERMS, tree.Arithmetic)
@row("decimals otherwise, `/`, `**` with a variable", "X", "`X ** 3` is a product", tests="power decimals_todo")
def arithmetic(port: ClausePort, node: tree.Arithmetic, in_head: bool) -> None:
    if node.sign == "+" and any(isinstance(bare(it), tree.String) for it in summands(node)):
        concatenation(port, node)
    elif in_head:
        in_head_calculated(port, node)
    elif node.sign == "/":
        raise Todo("decimal", "/ gives decimals: div, where whole numbers are meant", node)
    elif node.sign == "**":
        power(port, node)
    else:
        port.term(node.left)
        port.term(node.right)


def power(port: ClausePort, node: tree.Arithmetic) -> None:
    exponent = bare(node.right)
    if not (isinstance(exponent, tree.Number) and exponent.text.isdigit() and 1 <= int(exponent.text) <= 8):
        raise Todo("decimal", "** with such an exponent", node)
    port.term(bare(node.left))
    base = port.text(node.left)
    port.write(node, f"({' * '.join([base] * int(exponent.text))})")


@row(
    "arithmetic in beliefs, heads, goals, triggers",
    "E",
    "calculated, or a variable and `V = ..` in the body of the rule or in the context",
    tests="bel_arith rule_head trigger_arith",
)
def in_head_calculated(port: ClausePort, node: Node) -> None:
    """Arithmetic where none may stand: its value, or a variable that is asked for."""
    value = constant(node)
    if value is not None:
        port.write(node, str(value))
        port.note(node, f"{port.original(node)} is calculated: {value}", "arith")
        return
    if isinstance(node, tree.Negative):
        port.term(node.inside)
    else:
        port.term(node)
    name = port.variable()
    port.ask_before(f"{name} = {port.text(node)}", f"{name} = {port.text(node)}")
    port.write(node, name)


def constant(node: Node) -> Optional[int]:
    """The value of arithmetic without variables."""
    node = bare(node)
    if isinstance(node, tree.Number) and node.text.isdigit():
        return int(node.text)
    if isinstance(node, tree.Negative):
        value = constant(node.inside)
        return None if value is None else -value
    if isinstance(node, tree.Arithmetic) and node.sign in ("+", "-", "*"):
        left, right = constant(node.left), constant(node.right)
        if left is not None and right is not None:
            return {"+": left + right, "-": left - right, "*": left * right}[node.sign]
    return None


def summands(node: Node) -> list[Node]:
    node = bare(node)
    return summands(node.left) + summands(node.right) if isinstance(node, tree.Arithmetic) and node.sign == "+" else [node]


@row('`"a" + X`', "E", '`.concat("a", X, V)` before', tests="str_plus")
def concatenation(port: ClausePort, node: tree.Arithmetic) -> None:
    parts = summands(node)
    for part in parts:
        port.term(part)
    name = port.variable("S")
    port.ask_before(f".concat({', '.join(port.text(part) for part in parts)}, {name})")
    port.write(node, name)
