"""Chance: a generator with a seed, the same at each run."""
from __future__ import annotations

import re
from typing import TYPE_CHECKING, Iterable, Optional

from .. import tree
from ..tree import Node, bare, conjuncts
from ..words import blank_call, call
from .table import Answer, action, row

if TYPE_CHECKING:
    from ..clause import ClausePort

SEEDED = "chance is a generator with a seed"


def digits_of(port: ClausePort, plan: tree.Clause, variable: str) -> Optional[int]:
    """With how many digits behind the dot a variable of a plan is drawn, where what it is compared with has a unit."""
    return port.porting.drawn.get(((port.source.page.name, plan.start), variable))


@action("random")
@row(
    "`.random(R)` in a body: only `math.floor(R * N)`; only `R * K`; only compared; `.random(L, X)`",
    "D",
    "a generator with a seed; thousandths",
    "the same at each run; otherwise used: X",
    tests="random_floor random_times random_compared random_member random_todo",
)
def random(port: ClausePort, node: tree.Literal, in_context: bool) -> Answer:
    if in_context or len(node.arguments) not in (1, 2):
        return None
    if len(node.arguments) == 2:
        return random_member(port, node)
    variable = node.arguments[0]
    if not isinstance(variable, tree.Variable):
        return None
    uses = [it for it in tree.of_kind(port.clause, tree.Variable) if it.name == variable.name and it is not variable]
    if uses and len(uses) == len(list(floors(port, variable.name))):
        port.drawn = variable.name
        port.note(node, f"{SEEDED}: the same at each run", "random")
        return "true"
    behind = digits_of(port, port.clause, variable.name)
    if behind is not None:
        port.note(node, f"{SEEDED}: the same at each run; {variable.name} has whole numbers from 0 to {10**behind - 1}", "random")
        return f"!{port.library('random')}({10**behind}, {variable.name})"
    products = list(products_of(port.clause, variable.name))
    if not uses or len(uses) != len(products):
        return None
    for product in products:
        port.write(product, f"({port.original(product)}) div 1000")
    port.note(node, f"{SEEDED}: {variable.name} is in thousandths, and what it is multiplied by gives whole numbers", "random")
    return f"!{port.library('random')}(1000, {variable.name})"


def random_member(port: ClausePort, node: tree.Literal) -> str:
    for argument in node.arguments:
        port.term(argument)
    members, chosen = map(port.text, node.arguments)
    count, place = port.variable("N"), port.variable("I")
    port.note(node, SEEDED, "random")
    return f".length({members}, {count}); !{port.library('random')}({count}, {place}); .nth({place}, {members}, {chosen})"


def floors(port: ClausePort, name: str) -> Iterable[tree.Relation]:
    """The relations of the clause that end in `math.floor(R * N)`."""
    form = re.compile(rf"math\.(floor|round)\s*\(\s*({name}\s*\*\s*\w+|\w+\s*\*\s*{name})\s*\)$")
    return (it for it in tree.of_kind(port.clause, tree.Relation) if form.search(port.original(it).rstrip()))


def products_of(clause: tree.Clause, name: str) -> Iterable[tree.Arithmetic]:
    """The products of a variable and a whole number."""
    is_variable = lambda node: isinstance(node, tree.Variable) and node.name == name
    is_whole = lambda node: isinstance(node, tree.Number) and node.text.isdigit()
    for product in tree.of_kind(clause, tree.Arithmetic):
        left, right = bare(product.left), bare(product.right)
        if product.sign == "*" and (is_variable(left) and is_whole(right) or is_whole(left) and is_variable(right)):
            yield product


# ---- In contexts


def draws(plan: tree.Plan) -> list[tuple[Node, str]]:
    """The parts of a context that draw, each with its variable."""
    parts = [(part, bare(part)) for part in (conjuncts(plan.context) if plan.context else [])]
    return [
        (part, inside.arguments[0].name)
        for part, inside in parts
        if tree.is_literal(inside, ".random") and len(inside.arguments) == 1 and isinstance(inside.arguments[0], tree.Variable)
    ]


@row(
    "`.random(R)` in a context, compared",
    "D",
    "drawn by a plan for the trigger, which hands it on by the goal `g_chance`",
    "the context is asked some cycles later; plans with annotations, rules: X",
    tests="toss toss_event chance_todo",
)
def drawn_before(port: ClausePort, plan: tree.Plan) -> bool:
    """Whether a plan of this trigger draws in its context; then this plan is ported here, as one for a goal that has the numbers."""
    event, trigger = plan.trigger.event, plan.trigger
    if not isinstance(trigger.literal, tree.Literal) or event.sign != "+" or event.kind == "?":
        return False
    group = port.source.by_event.get(event, [])
    columns = [(other, name) for other in group for _, name in draws(other)]
    if plan not in group or not columns or trigger.literal.negated or any(other.trigger.literal.annotations for other in group):
        return False
    behind = [digits_of(port, other, name) for other, name in columns]
    if None in behind:
        return False
    goal = port.source.chances.get(event) or port.source.chances.setdefault(event, port.fresh("_chance"))
    numbers = [name if other is plan else "_" for other, name in columns]
    write_plan(port, plan, goal, numbers)
    if plan is group[0]:
        port.front = drawing_plan(port, plan, goal, behind)
        port.note(plan, f"chance in a context is drawn before, and handed to the plans by the goal {goal}; it has a seed", "random")
    if plan is group[-1] and not event.kind:
        port.helpers.append(f"+!{blank_call(goal, len(numbers) + event.count)}.")
    return True


def write_plan(port: ClausePort, plan: tree.Plan, goal: str, numbers: list[str]) -> None:
    """Writes the plan as one for the goal that has the numbers."""
    drawing = [part for part, _ in draws(plan)]
    rest = [it for it in (conjuncts(plan.context) if plan.context else []) if it not in drawing]
    for part in rest:
        port.formula(part)
    for argument in plan.trigger.literal.arguments:
        port.term(argument, True)
    port.write(plan.trigger, "+!" + call(goal, numbers + [port.text(it) for it in plan.trigger.literal.arguments]))
    conditions = [port.text(it) for it in rest] + [question.formula for question in port.questions]
    if plan.context:
        port.write(plan.context, " & ".join(conditions) or "true")
    elif conditions:
        port.write(plan.trigger, port.text(plan.trigger) + " : " + " & ".join(conditions))
    if plan.body:
        port.body(plan.body)


def drawing_plan(port: ClausePort, plan: tree.Plan, goal: str, behind: list[Optional[int]]) -> str:
    """The plan for the trigger, which draws all numbers of its plans."""
    values = [f"A{count + 1}" for count in range(plan.trigger.event.count)]
    numbers = [f"R{count + 1}" for count in range(len(behind))]
    drawn = "; ".join(f"!{port.library('random')}({10**(digits or 0)}, {number})" for digits, number in zip(behind, numbers))
    return f"+{plan.trigger.kind}{call(plan.trigger.literal.name, values)} <- {drawn}; !{call(goal, numbers + values)}.\n"
