"""Steps of bodies, but for blocks and internal actions."""
from __future__ import annotations

import re
from typing import TYPE_CHECKING

from .. import tree
from ..notes import Todo
from ..tree import bare, variables
from ..words import call, one_line
from . import formulas
from .actions import inner_action
from .names import literal, written_name
from .table import Answer, row, statement

if TYPE_CHECKING:
    from ..clause import ClausePort


@statement(tree.Block)
def block(port: ClausePort, node: tree.Block) -> Answer:
    return port.body_text(node.body)


@statement(tree.Item)
def item(port: ClausePort, node: tree.Item) -> Answer:
    if node.sign == "?":
        return question(port, node)
    if node.sign in ("!", "!!"):
        return goal(port, node)
    return change(port, node) if node.sign else act(port, node)


def question(port: ClausePort, node: tree.Item) -> Answer:
    subject = bare(node.subject)
    if isinstance(subject, tree.Literal):
        if subject.name[0] == ".":
            return inner_step(port, subject)
        literal(port, subject)
        return None
    return relation(port, subject) if isinstance(subject, tree.Relation) else test(port, subject)


@row("`?(F)`, `not p` as a step", "E", "a rule `g_test(V..) :- F`, and `?g_test(V..)`", tests="test_formula notitem")
def test(port: ClausePort, formula: tree.Node) -> str:
    """A question of several conditions."""
    name, outside = port.fresh("_test"), port.scope.outside(formula)
    head = call(name, [it for it in variables(formula) if it in outside])
    port.whole_formula(formula)
    port.helpers.append(f"{head} :- {port.text(formula)}.")
    port.note(formula, f"a question of several conditions is a rule: {name}", "test")
    return "?" + head


def goal(port: ClausePort, node: tree.Item) -> Answer:
    if isinstance(node.subject, tree.Variable):
        return variable_goal(port, node)
    literal(port, node.subject)
    return None


@row(
    "`!G`",
    "D",
    "`!call(G)`, with a plan for each goal that the source names",
    "goals that only messages bring",
    tests="goalvar",
)
def variable_goal(port: ClausePort, node: tree.Item) -> str:
    source, subject = port.source, node.subject
    if subject.annotations or subject.namespace is not None or subject.negated:
        raise Todo("var", "annotations, a namespace or ~ at a variable", subject)
    if source.call_goal is None:
        source.call_goal = port.additions.fresh("call")
        for goal in source.goals.values():
            named = call(written_name(source, goal, True), [f"A{count + 1}" for count in range(len(goal.arguments))])
            port.additions.clauses.append(f"+!{source.call_goal}({named}) <- !{named}.")
    port.note(node, f"a variable in place of a goal: !{source.call_goal}({subject.name}), with a plan for each goal that this source names", "var")
    return f"{node.sign}{source.call_goal}({subject.name})"


@row("`++b`, `+>b`, `+<b`, `--b`", "E", "`+b`, `-b`", "`+<`: the belief comes last", tests="plusplus first_belief")
def change(port: ClausePort, node: tree.Item) -> Answer:
    literal(port, node.subject)
    if node.sign == "+<":
        port.note(node, "+< puts a belief first; here it comes last", "order")
    sign = {"++": "+", "+>": "+", "+<": "+", "--": "-"}.get(node.sign)
    if sign is not None:
        return sign + port.text(node.subject)
    plan_in_between(port, node)
    return None


@row(
    "`+b` with a plan for it and steps behind",
    "S",
    "note `[focus]`: in Jason the plan runs first",
    "here it is an intention of its own",
    tests="focus",
)
def plan_in_between(port: ClausePort, node: tree.Item) -> None:
    if node.separator is None or not isinstance(node.subject, tree.Literal):
        return
    for plan in port.source.plans_for(node.sign, "", node.subject.functor):
        if plan.trigger.literal.negated == node.subject.negated:
            name = plan.trigger.sign + node.subject.name
            port.note(node, f"in Jason the plan for {name} runs here first; here it is an intention of its own, beside what follows", "focus")
            return


def act(port: ClausePort, node: tree.Item) -> Answer:
    """A relation, an internal action, or an action of the world."""
    subject = bare(node.subject)
    if isinstance(subject, tree.Relation):
        text = relation(port, subject)
        if text.startswith("!"):
            return text
        left = port.text(subject.left)
        # a step that begins with - is a removal
        return f"({left}){text[len(left) :]}" if subject is node.subject and text.startswith("-") else None
    if not isinstance(subject, tree.Literal):
        if isinstance(subject, tree.Variable):
            raise Todo("var", "a variable in place of an action", subject)
        return test(port, subject)
    if tree.is_truth(subject):
        return None if subject.name == "true" else ".fail"
    return inner_step(port, subject) if subject.is_inner else world_action(port, subject)


def inner_step(port: ClausePort, node: tree.Literal) -> str:
    text = inner_action(port, node, in_context=False)
    return port.text(node) if text is None else text


def world_action(port: ClausePort, node: tree.Literal) -> None:
    if node.annotations or node.negated:
        port.note(node, "an action has neither ~ nor annotations: dropped", "action")
        if node.annotations:
            port.write(node.annotations, "")
    literal(port, node, in_namespace=False)
    name = port.printer.names.get(node, node.name).removeprefix("~")
    if node.negated:
        port.printer.rename(node, name)
    port.porting.actions.add(tree.Functor(name, len(node.arguments)))


def relation(port: ClausePort, node: tree.Relation) -> str:
    """A relation as a step. One that takes a drawn number apart is the drawing itself."""
    left, right = bare(node.left), bare(node.right)
    if port.drawn and node.sign == "=" and isinstance(left, tree.Variable):
        drawn = re.fullmatch(
            rf"math\.(?:floor|round)\s*\(\s*(?:{port.drawn}\s*\*\s*(\w+)|(\w+)\s*\*\s*{port.drawn})\s*\)", one_line(port.original(right))
        )
        if drawn:
            port.write(node, f"!{port.library('random')}({drawn.group(1) or drawn.group(2)}, {left.name})")
            return port.text(node)
    formulas.relation(port, node)
    return port.text(node)
