"""`if`, `for` and `while`: each is a goal, with a plan for each way it may go. Its arguments are the variables that have to be handed on."""
from __future__ import annotations

from typing import TYPE_CHECKING, NamedTuple

from .. import tree
from ..notes import Todo
from ..scope import bound_in_rounds, may_bind, surely_bound
from ..tree import bare, variables
from ..words import blank_call, call
from .table import Answer, row, statement

if TYPE_CHECKING:
    from ..clause import ClausePort


@statement(tree.If)
@row(
    "`if (F) {A} elif .. else {B}`",
    "E",
    "the goal `g_if(V..)`, a plan for each branch, the last without context; V: what stands inside and elsewhere in the plan",
    tests="if_binds if_sees if_condbinds if_none if_fail if_fail_own if_nested if_two if_comment while_in_if",
)
def if_goal(port: ClausePort, node: tree.If) -> Answer:
    outside = port.scope.outside(node)
    name, values = port.fresh("_if"), [it for it in variables(node) if it in outside]
    helpers = len(port.helpers)
    plans, branch = [], node
    while isinstance(branch, tree.If):
        port.whole_formula(branch.condition)
        plans.append(f"+!{call(name, values)} : {port.text(branch.condition).strip()} <- {port.body_text(branch.then)}.")
        branch = branch.other
    if branch is None:
        plans.append(f"+!{blank_call(name, len(values))}.")
    else:
        plans.append(f"+!{call(name, values)} <- {port.body_text(branch)}.")
    port.helpers[helpers:helpers] = plans
    port.note(node, f"if is the goal {name}", "if")
    return "!" + call(name, values)


class Rounds(NamedTuple):
    """What a loop hands from round to round: the variables, how its plan names them, and what that plan asks first."""

    values: list[str]
    inside: list[str]
    asked: str


def rounds(port: ClausePort, loop: tree.Loop, values: list[str]) -> Rounds:
    """Variables that may be unbound before the loop, and bound in a round, are new ones in each round, by the rule `given`."""
    free = bound_in_rounds(loop) - surely_bound(port.clause, loop)
    own = {value: port.variable(value) for value in values if value in free}
    asked = [f"{port.library('given')}({own[value]}, {value})" for value in own]
    return Rounds(values, [own.get(value, value) for value in values], " & ".join(asked))


def handed_on(port: ClausePort, loop: tree.Loop, bound: set[str]) -> list[str]:
    """The variables of the loop's body that stand before it, but for those that the loop binds."""
    before = port.scope.before(loop.start)
    return [it for it in variables(loop.body) if it in before and it not in bound]


@statement(tree.For)
@row(
    "`for (F) {B}`",
    "E",
    "`.findall(f(X..), F, L); !g_for(L, V..)`; X: variables of F, not under `not`, that B has; V: other variables of B that stand before",
    "with a variable of X that F leaves unbound `.findall` fails",
    tests="for_fresh for_outer for_notafter for_bound for_before for_fail for_nested for_goalvar for_pattern for_conj deep_if_in_for concurrent",
)
def for_goal(port: ClausePort, node: tree.For) -> Answer:
    name, condition = port.fresh("_for"), bare(node.condition)
    port.note(node, f"for is the goal {name}", "for")
    first = condition.arguments[0] if tree.is_literal(condition, ".member", ".range") and condition.arguments else None
    if isinstance(first, tree.Variable) and first.name not in port.scope.before(node.start):
        if condition.name == ".member" and len(condition.arguments) == 2 and first.name != "_":
            return for_members(port, node, name, condition)
        if condition.name == ".range" and len(condition.arguments) in (3, 4):
            return for_range(port, node, name, condition)
    return for_solutions(port, node, name)


def put_list_goal(port: ClausePort, node: tree.For, name: str, item: str, hand: Rounds, rest: str) -> None:
    """The plans of a goal over a list."""
    helpers = len(port.helpers)
    context = f" : {hand.asked}" if hand.asked else ""
    body = port.body_text(node.body)
    port.helpers[helpers:helpers] = [
        f"+!{call(name, ['[]'] + ['_'] * len(hand.values))}.",
        f"+!{call(name, [f'[{item}|{rest}]', *hand.inside])}{context} <- {body}; !{call(name, [rest, *hand.inside])}.",
    ]


@row(
    "`for (.member(X, L))`, `for (.range(I, A, B, S))`",
    "E",
    "`!g_for(L, V..)` with `[X|R]`; `!g_for(A, B, V..)` that counts",
    tests="for_goalvar for_range range_step_todo",
)
def for_members(port: ClausePort, node: tree.For, name: str, condition: tree.Literal) -> str:
    item, members = condition.arguments
    hand = rounds(port, node, handed_on(port, node, {item.name}))
    port.term(members)
    put_list_goal(port, node, name, item.name, hand, port.scope.new("R"))
    return "!" + call(name, [port.text(members), *hand.values])


def for_range(port: ClausePort, node: tree.For, name: str, condition: tree.Literal) -> str:
    count = condition.arguments[0].name
    hand = rounds(port, node, handed_on(port, node, {count}))
    for bound in condition.arguments[1:]:
        port.term(bound)
    step = port.text(condition.arguments[3]) if len(condition.arguments) == 4 else "1"
    if not step.isdigit():
        raise Todo("range", "a step that is no number", condition)
    last = port.scope.new("To")
    count = port.scope.new("I") if count == "_" else count
    helpers = len(port.helpers)
    asked, next_one = f" & {hand.asked}" if hand.asked else "", f"{count} + {step}"
    body = port.body_text(node.body)
    port.helpers[helpers:helpers] = [
        f"+!{call(name, [count, last, *hand.inside])} : {count} <= {last}{asked} <- {body}; !{call(name, [next_one, last, *hand.inside])}.",
        f"+!{blank_call(name, 2 + len(hand.values))}.",
    ]
    return "!" + call(name, [port.text(condition.arguments[1]), port.text(condition.arguments[2]), *hand.values])


def for_solutions(port: ClausePort, node: tree.For, name: str) -> str:
    """All solutions first, and then a round for each."""
    inside = variables(node.body)
    found = [it for it in dict.fromkeys(may_bind(node.condition)) if it in inside]
    hand = rounds(port, node, handed_on(port, node, set(found)))
    port.whole_formula(node.condition)
    solutions, rest = port.scope.new("L"), port.scope.new("R")
    item = found[0] if len(found) == 1 else call("f", found)
    put_list_goal(port, node, name, item, hand, rest)
    return f".findall({item}, {port.text(node.condition).strip()}, {solutions}); !{call(name, [solutions, *hand.values])}"


@statement(tree.While)
@row(
    "`while (F) {B}`",
    "E",
    "`+!g_while(V..) : F <- B; !g_while(V..).`; V: variables that stand before",
    "what a round binds is forgotten, as in Jason",
    tests="while_restore while_outer while_false while_in_if",
)
def while_goal(port: ClausePort, node: tree.While) -> Answer:
    before, helpers = port.scope.before(node.start), len(port.helpers)
    name = port.fresh("_while")
    hand = rounds(port, node, [it for it in variables(node) if it in before])
    port.whole_formula(node.condition)
    context = port.text(node.condition).strip()
    if hand.asked:
        is_or = isinstance(node.condition, tree.Chain) and node.condition.sign == "|"
        context = f"{hand.asked} & {f'({context})' if is_or else context}"
    body = port.body_text(node.body)
    port.helpers[helpers:helpers] = [
        f"+!{call(name, hand.inside)} : {context} <- {body}; !{call(name, hand.inside)}.",
        f"+!{blank_call(name, len(hand.values))}.",
    ]
    port.note(node, f"while is the goal {name}", "while")
    return "!" + call(name, hand.values)
