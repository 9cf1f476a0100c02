"""Beliefs, rules, initial goals, plans and directives, each as a whole."""
from __future__ import annotations

from typing import TYPE_CHECKING

from .. import tree
from ..notes import Todo
from . import chance, failures, generic, intentions, labels, questions
from .names import literal
from .table import CLAUSES, DIRECTIVES, SECTIONS, put, row

if TYPE_CHECKING:
    from ..clause import ClausePort


@put(CLAUSES, tree.Belief)
@row(
    "beliefs, rules, `~`, annotations, goals, plans, `-!`, `+?`, messages, the 28 internal actions",
    "S",
    "not a byte is touched",
    "the order of beliefs: notes `[order]`, `[mixed]`",
    tests="kept order",
)
def belief(port: ClausePort, node: tree.Belief) -> str:
    literal(port, node.literal, in_head=True)
    if not port.questions:
        return port.text(node)
    port.note(node, "arithmetic in a belief: a rule", "arith")
    return f"{port.text(node.literal)} :- {asked(port)}."


def asked(port: ClausePort) -> str:
    """What is asked before, as a formula."""
    return " & ".join(question.formula for question in port.questions)


@put(CLAUSES, tree.Rule)
def rule(port: ClausePort, node: tree.Rule) -> str:
    literal(port, node.head, in_head=True)
    port.formula(node.body)
    if port.questions:
        text = port.text(node.body)
        is_or = isinstance(node.body, tree.Chain) and node.body.sign == "|"
        port.write(node.body, f"{asked(port)} & {f'({text})' if is_or else text}")
    return port.text(node)


@put(CLAUSES, tree.Goal)
def goal(port: ClausePort, node: tree.Goal) -> str:
    literal(port, node.literal, in_head=True)
    if port.questions:
        raise Todo("arith", "arithmetic with variables in an initial goal", node)
    return port.text(node)


@put(CLAUSES, tree.Directive)
@row("other directives", "X", "", tests="directive_todo")
def directive(port: ClausePort, node: tree.Directive) -> str:
    found = DIRECTIVES.get(node.literal.name)
    if found is None:
        raise Todo("directive", f"the directive {node.literal.name}", node)
    return found(port, node)


@put(CLAUSES, tree.Section)
def section(port: ClausePort, node: tree.Section) -> str:
    found = SECTIONS.get(node.literal.name)
    if found is None or not node.literal.arguments:
        raise Todo("directive", f"the directive {node.literal.name}", node)
    return found(port, node)


@put(CLAUSES, tree.Plan)
@row("`^!g`, `<:`, plans in plans, `kqml_received`", "X", "the clause is set aside", tests="broken kqml plans_todo")
def plan(port: ClausePort, node: tree.Plan) -> str:
    named = node.trigger.literal
    for hurts, code, text, place in (
        (node.trigger.sign == "^", "meta", "events of goals that are suspended, resumed and so on are not there", node.trigger),
        (node.goal_condition, "plan", "goal conditions (<:) are not there", node.goal_condition),
        (node.inner, "plan", "plans inside a plan are not there", node.inner),
        (named.name == "kqml_received", "kqml", "there is no event kqml_received: write contexts over source(A)", named),
    ):
        if hurts:
            raise Todo(code, text, place)
    if node.label:
        labels.label(port, node.label)
    if isinstance(named, tree.Variable):
        return generic.plan_for_each_goal(port, node)
    if chance.drawn_before(port, node):
        return port.text(node)
    failures.trigger(port, node)
    context(port, node)
    if node.body and not port.printer.is_anew(node.body):
        port.body(node.body)
    questions.answered_plan(port, node)
    if port.extra_context:
        place, between = (node.context, " & ") if node.context else (node.trigger, " : ")
        text = port.text(place)
        is_or = isinstance(place, tree.Chain) and place.sign == "|"
        port.write(place, f"{f'({text})' if is_or else text}{between}{port.extra_context}")
    return port.text(node)


def context(port: ClausePort, node: tree.Plan) -> None:
    if node.context is None:
        return
    if not intentions.asked_in_body(port, node):
        port.formula(node.context)
    if port.questions:
        raise Todo("arith", "a function in the context", node.context)
