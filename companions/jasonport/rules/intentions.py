"""`.desire` and `.intend` in a context: jasonrun asks for them in bodies alone."""
from __future__ import annotations

from typing import TYPE_CHECKING

from .. import tree
from ..notes import Todo
from ..tree import bare, conjuncts, variables
from ..words import call
from .names import literal
from .table import row

if TYPE_CHECKING:
    from ..clause import ClausePort

ASKED = (".desire", ".intend")


@row(
    "`.desire`, `.intend` in a context",
    "D",
    "the last plan of its trigger: asked in the body, `not` by a failure plan",
    "with plans behind it: X; where it does not hold the intention ends with `ia_failed`, and a goal with `not` is reached",
    tests="desire intend_when intend_todo",
)
def asked_in_body(port: ClausePort, plan: tree.Plan) -> bool:
    """Whether the context asks for a goal; then context and body are ported here, and the body becomes a goal that asks."""
    parts = conjuncts(plan.context)
    asking = [part for part in parts if any(tree.is_literal(it, *ASKED) for it in part.walk())]
    if not asking:
        return False
    part = bare(asking[0])
    is_not = isinstance(part, tree.Not)
    question = bare(part.inside) if is_not else part
    is_last = port.source.by_event.get(plan.trigger.event, [plan])[-1] is plan
    if not isinstance(question, tree.Literal):
        raise Todo("intend", ".desire in a formula", asking[0])
    if len(asking) > 1 or question.name not in ASKED or len(question.arguments) != 1 or not is_last:
        why = f"{question.name} in a context, with other plans behind: ask it in a body, and go on in its failure plan"
        raise Todo("intend", why, asking[0])
    rest = [it for it in parts if it is not asking[0]]
    for other in rest:
        port.formula(other)
    literal(port, question.arguments[0])
    goal = goal_that_asks(port, plan, question, rest, is_not)
    port.write(plan.context, " & ".join(map(port.text, rest)) or "true")
    if plan.body:
        port.write(plan.body, "!" + goal)
    else:
        port.write(plan.context, port.text(plan.context) + f" <- !{goal}")
    if not is_not:
        otherwise = "; where it does not hold, the intention ends with ia_failed"
    else:
        otherwise = "; where it holds, the goal is reached and nothing is done" if plan.trigger.kind else ""
    port.note(asking[0], f"{question.name} is asked in the body of this plan, the last of its trigger{otherwise}", "intend")
    return True


def goal_that_asks(port: ClausePort, plan: tree.Plan, question: tree.Literal, rest: list[tree.Node], is_not: bool) -> str:
    """The goal that stands in place of the body, with its plans as helpers."""
    name = port.fresh("_unless" if is_not else "_when")
    used = variables(plan.body, question)
    values = [it for it in variables(plan.trigger, *rest) if it in used]
    if plan.body:
        port.body(plan.body)
    body, goal = port.text(plan.body) or "true", call(name, values)
    if is_not:
        port.helpers += [f"+!{goal} <- {port.text(question)}.", f"-!{goal}[error(ia_failed)] <- {body}."]
        return goal
    then, asks = call(port.additions.fresh(name + "_do"), values), call(name + "_ask", values)
    port.helpers += [f"+!{goal} <- !{asks}; !{then}.", f"+!{asks} <- {port.text(question)}.", f"+!{then} <- {body}."]
    return goal
