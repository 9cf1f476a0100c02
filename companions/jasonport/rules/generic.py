"""A variable in place of the literal of a plan."""
from __future__ import annotations

from typing import TYPE_CHECKING

from .. import tree
from ..grammar import Parser
from ..notes import Note, Todo
from ..tree import Functor
from ..words import call, set_aside
from .table import row

if TYPE_CHECKING:
    from ..clause import ClausePort
    from ..source import Source


def is_for_all(plan: tree.Plan) -> bool:
    """Whether a plan has no context, and no annotation that asks for more than some value: no error of its own."""
    annotations = plan.trigger.literal.annotations
    asked = [argument for it in (annotations.items if annotations else []) for argument in getattr(it, "arguments", []) or [it]]
    return plan.context is None and all(isinstance(it, tree.Variable) for it in asked)


def has_own_plan(source: Source, plan: tree.Plan, goal: tree.Literal) -> bool:
    """Whether a plan for this goal alone, whatever is asked, stands before the plan for all; of plans that achieve, anywhere."""
    own = source.by_event.get(tree.Event(plan.trigger.sign, "!", *goal.functor), [])
    return any(is_for_all(it) and (it.start < plan.start or plan.trigger.sign == "+") for it in own)


def with_goal(source: Source, plan: tree.Plan, goal: Functor) -> str:
    """The text of the plan with a goal in place of its variable, without its label, in the same line."""
    variable, text = plan.trigger.literal, source.page.text
    named = call(goal.name, [f"A{count + 1}" for count in range(goal.count)])
    found, place = [], plan.trigger.start
    for node in tree.of_kind(plan, tree.Variable):
        if node.name == variable.name and node.start >= place:
            found += [text[place : node.start], named]
            place = node.name_end
    line, _ = source.page.place(plan.trigger.start)
    return "\n" * (line - 1) + "".join(found) + text[place : plan.end]


@row(
    "`-!G[error(E)]`, `+!G`",
    "D",
    "a plan for each goal that the source names",
    "goals that only messages bring",
    tests="generic generic_todo",
)
def plan_for_each_goal(port: ClausePort, plan: tree.Plan) -> str:
    source, variable = port.source, plan.trigger.literal
    if plan.trigger.kind != "!" or plan.trigger.sign not in "+-":
        raise Todo("var", "a variable in place of a literal", plan.trigger)
    goals = [it for it, literal in source.goals.items() if not has_own_plan(source, plan, literal)]
    if not goals:
        raise Todo("var", "a variable in place of a literal, and no goal is known for it", plan.trigger)
    text = f"a plan for each of the goals that this source names ({len(goals)}), in place of one for all ({variable.name})"
    port.note(plan, text + "; a goal that only a message brings has none", "var")
    notes: list[Note] = []
    try:
        texts = [ported(port, source.with_text(with_goal(source, plan, goal), notes)) for goal in goals]
    except Todo as todo:
        port.todo(plan, todo.text, todo.code)
        return set_aside(port.original(plan))
    for kind, text, code in dict.fromkeys((note.kind, note.text, note.code) for note in notes):
        source.page.say(kind, plan.start, text, code)
    return "\n".join(texts)


def ported(port: ClausePort, source: Source) -> str:
    """The port of a text that is one clause, by a port of its own."""
    clause = Parser(source.page.text).clause()
    return port.of(source, clause).whole_text()
