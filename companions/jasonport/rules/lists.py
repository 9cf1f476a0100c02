"""Internal actions on lists, and those that collect solutions."""
from __future__ import annotations

from typing import TYPE_CHECKING

from .. import tree
from ..notes import Todo
from ..tree import Node, bare
from ..words import call
from .names import rename
from .table import ACTIONS, Answer, action, put, row
from .values import summands

if TYPE_CHECKING:
    from ..clause import ClausePort

# Internal actions that are rules of the library, with how many arguments.
RULES = {
    "sort": ("sort", 2),
    "delete": ("delete", 3),
    "union": ("union", 3),
    "intersection": ("both", 3),
    "difference": ("minus", 3),
    "last": ("last", 2),
    "flatten": ("flatten", 2),
    "prefix": ("prefix", 2),
    "suffix": ("suffix", 2),
    "sublist": ("sublist", 2),
}


def rule_call(port: ClausePort, rule: str, values: list[Node], in_context: bool) -> str:
    """A rule of the library, as a formula or as a step."""
    return ("" if in_context else "?") + call(port.library(rule), map(port.text, values))


@put(ACTIONS, *RULES)
@row(
    "`.sort .union .difference .intersection .delete .last .flatten .prefix .suffix .sublist .range`",
    "E",
    "rules, added once at the end of the source under free names",
    "`.sort` of numbers alone, else X",
    tests="lib range_ctx taken_names sublists sort_todo",
)
def by_rule(port: ClausePort, node: tree.Literal, in_context: bool) -> Answer:
    name = node.name[1:]
    rule, count = RULES[name]
    if len(node.arguments) != count:
        return None
    for argument in node.arguments:
        port.term(argument)
    first = node.arguments[0]
    others = [it for it in getattr(first, "items", []) if isinstance(bare(it), (tree.Literal, tree.String, tree.ListTerm))]
    if name == "sort" and others:
        raise Todo("library", ".sort of other items than numbers", node)
    of_numbers = ", for numbers; equal ones stay, as in Jason" if name == "sort" else ""
    port.note(node, f"{node.name} is a rule{of_numbers}", "library")
    return rule_call(port, rule, node.arguments, in_context)


@action("range")
def range_of(port: ClausePort, node: tree.Literal, in_context: bool) -> Answer:
    if len(node.arguments) != 3:
        raise Todo("ia", ".range with a step outside for", node)
    for argument in node.arguments:
        port.term(argument)
    port.note(node, ".range is a rule", "library")
    return rule_call(port, "between", node.arguments, in_context)


@action("empty")
@row("`.empty(L)`", "E", "`L == []`", tests="empty")
def empty(port: ClausePort, node: tree.Literal, in_context: bool) -> Answer:
    if len(node.arguments) != 1:
        raise Todo("ia", f".empty with {len(node.arguments)} arguments", node)
    port.term(node.arguments[0])
    return f"{port.text(node.arguments[0])} == []"


@action("min", "max")
@row(
    "`.min`, `.max` of `d(K, V)`",
    "D",
    "a rule by the first argument, a number",
    "of equal ones the first; of lists: X",
    tests="lib",
)
def extreme(port: ClausePort, node: tree.Literal, in_context: bool) -> Answer:
    """The pattern of what is found tells of which terms the first argument counts. Of numbers jasonrun has both."""
    if len(node.arguments) != 2:
        return None
    wanted = bare(node.arguments[1])
    if isinstance(wanted, tree.ListTerm):
        raise Todo("ia", f"{node.name} of lists", node)
    if not (isinstance(wanted, tree.Literal) and wanted.arguments):
        return None
    for argument in node.arguments:
        port.term(argument)
    text = rule_call(port, "least" if node.name == ".min" else "greatest", [node.arguments[0], wanted], in_context)
    name = port.printer.names.get(wanted, wanted.name)
    port.additions.clauses.append(f"{port.library('key')}({call(name, ['K'] + ['_'] * (len(wanted.arguments) - 1))}, K) :- true.")
    text_of_note = f"{node.name} of terms is a rule that goes by their first argument, a number; of equal ones it takes the first"
    port.note(node, text_of_note, "library")
    return text


@action("findall")
@row("`.findall(X * 2, F, L)`", "E", "`.findall(V, F & V = X * 2, L)`", tests="findall")
def findall(port: ClausePort, node: tree.Literal, in_context: bool) -> Answer:
    if len(node.arguments) != 3:
        return None
    item, formula, found = node.arguments
    port.whole_formula(formula)
    with port.asked_apart() as questions:
        calculated(port, item)
    port.term(found)
    if questions:
        port.note(item, "arithmetic in the item of .findall stands in its formula", "arith")
        text = port.text(formula)
        if isinstance(formula, tree.Chain) and formula.sign == "|":
            text = f"({text})"
        port.write(formula, " & ".join([text] + [it.formula for it in questions]))
    return port.text(node)


def calculated(port: ClausePort, node: Node) -> None:
    """Ports an item of .findall. Its arithmetic becomes variables, for which the formula asks."""
    inside = bare(node)
    is_number = isinstance(inside, tree.Negative) and isinstance(inside.inside, tree.Number)
    is_sum = isinstance(inside, (tree.Arithmetic, tree.Negative)) and not is_number
    if is_sum and not any(isinstance(bare(it), tree.String) for it in summands(inside)):
        port.term(inside)
        name = port.variable()
        port.ask_before(f"{name} = {port.text(inside)}", "")
        port.write(node, name)
    elif isinstance(inside, tree.ListTerm) or isinstance(inside, tree.Literal) and not inside.is_inner:
        if isinstance(inside, tree.Literal):
            rename(port, inside, in_namespace=False)
        for part in inside.parts():
            calculated(port, part)
    else:
        port.term(node)


@action("count")
def count(port: ClausePort, node: tree.Literal, in_context: bool) -> Answer:
    if len(node.arguments) != 2:
        return None
    port.whole_formula(node.arguments[0])
    port.term(node.arguments[1])
    return port.text(node)
