"""Questions of other agents: beliefs and rules answer them, and no plans."""
from __future__ import annotations

from typing import TYPE_CHECKING, Optional

from .. import tree
from ..tree import bare
from ..words import call
from .actions import PURE
from .table import row

if TYPE_CHECKING:
    from ..clause import ClausePort


def condition(port: ClausePort, step: tree.Statement) -> Optional[str]:
    """A step as a condition, where it changes nothing: a question, a relation, an internal action."""
    if not isinstance(step, tree.Item) or port.text(step).startswith("!"):
        return None
    subject = bare(step.subject)
    if step.sign == "" and tree.is_literal(subject, "true"):
        return "true"
    is_question = step.sign == "?" and isinstance(subject, tree.Literal)
    is_pure = tree.is_literal(subject, *(f".{name}" for name in PURE)) or isinstance(subject, tree.Relation)
    if not (is_question or step.sign == "" and is_pure):
        return None
    return port.text(step).rstrip(";").removeprefix("?").strip().replace("; ?", " & ").replace("; ", " & ")


@row(
    "askOne, askAll answered by `+?g`",
    "E",
    "a rule beside the plan, where its body is relations and questions",
    "else X",
    tests="ask_rule ask_todo",
)
def answered_plan(port: ClausePort, plan: tree.Plan) -> None:
    """A plan for a question that some source sends."""
    named = plan.trigger.literal
    if (plan.trigger.sign, plan.trigger.kind) != ("+", "?") or named.functor not in port.porting.asked:
        return
    conditions = [port.text(plan.context)] if plan.context and port.text(plan.context).strip() != "true" else []
    for step in plan.body.items if plan.body else []:
        text = condition(port, step)
        if text is None:
            port.todo(plan, "a question of another agent (askOne, askAll) is answered by beliefs and rules alone, and this plan is no rule", "ask")
            return
        conditions.append(text)
    head = call(("~" if named.negated else "") + port.printer.names.get(named, named.name).removeprefix("~"), map(port.text, named.arguments))
    port.helpers.append(f"{head} :- {' & '.join(conditions) or 'true'}.")
    port.note(plan, "what others ask is answered by beliefs and rules alone: a rule beside this plan", "ask")
