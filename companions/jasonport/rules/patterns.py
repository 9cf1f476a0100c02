"""`{begin dg(..)}` and the other patterns of goals: written out, as docs/FROM_JASON.md has them."""
from __future__ import annotations

from typing import TYPE_CHECKING

from .. import tree
from ..notes import Todo
from ..words import call, flat_name
from .names import literal
from .table import row, section
from .waiting import event_of

if TYPE_CHECKING:
    from ..clause import ClausePort

BACKTRACKING = ("bdg", "ebdg")
# Commitments: how many arguments stand before the one that ends the goal well, and whether the second is for giving up.
COMMITMENTS = {"bc": (None, False), "smc": (None, True), "rc": (1, False), "omc": (2, True)}
CAUGHT = ("test_failed", "action_failed", "ia_failed", "no_relevant")


@section("dg", "bdg", "ebdg", "bc", "smc", "rc", "omc")
@row(
    "`{begin dg, bdg, bc, smc, rc, omc, mg, sga}`",
    "D",
    "written out as [FROM_JASON](FROM_JASON.md#patterns-of-goals) has it",
    "a failed goal is gone: `[pattern]`, `[below]`",
    tests="dg pattern_bdg pattern_omc pattern_mg pattern_sga",
)
def pattern(port: ClausePort, node: tree.Section) -> str:
    name, arguments = node.literal.name, node.literal.arguments
    port_arguments(port, arguments)
    goal, tried = port.text(arguments[0]), port.additions.fresh("tried")
    found = [f"+!{goal} : {goal}."]
    ways = 0
    for clause in node.clauses:
        if is_way(clause, arguments[0]):
            ways += 1
            mark = f"{tried}({ways}, {goal})" if name in BACKTRACKING else ""
            found += way(port, clause, goal, mark)
        else:
            found.append(port.source.clause_text(clause))
    if name in BACKTRACKING:
        found += [f"-!{goal}[error({error})] <- !{goal}." for error in CAUGHT]
        found.append(f"+{goal} <- .abolish({tried}(_, {goal})); .succeed_goal({goal}).")
    else:
        found += commitment(port, name, goal, arguments)
    text = f"{name} is written out; a goal that failed is gone until its failure plan has it anew: name a goal above it where it is to be ended then"
    port.note(node, text, "pattern")
    return "\n".join(it for it in found if it)


def port_arguments(port: ClausePort, arguments: list[tree.Node]) -> None:
    for argument in arguments:
        literal(port, argument, in_head=True)
    if port.questions:
        raise Todo("arith", "arithmetic with variables in a directive", port.clause)


def is_way(clause: tree.Clause, goal: tree.Node) -> bool:
    """Whether a clause is a plan for the goal of the pattern."""
    if not isinstance(clause, tree.Plan) or not isinstance(goal, tree.Literal):
        return False
    return (clause.trigger.sign, clause.trigger.kind, clause.trigger.literal.name) == ("+", "!", goal.name)


def way(port: ClausePort, plan: tree.Plan, goal: str, mark: str) -> list[str]:
    """A plan for the goal, which asks at its end whether it is reached; with a mark it is tried once."""
    own = port.of(port.source, plan)
    conditions = [f"not {mark}"] if mark else []
    if plan.context:
        own.formula(plan.context)
        text = own.text(plan.context)
        conditions.append(f"({text})" if isinstance(plan.context, tree.Chain) and plan.context.sign == "|" else text)
    body = own.body_text(plan.body) if plan.body else ""
    steps = ([f"+{mark}"] if mark else []) + ([body] if body and body != "true" else []) + [f"?{goal}"]
    label = f"@{plan.label.name} " if plan.label and plan.label.name else ""
    context = f" : {' & '.join(conditions)}" if conditions else ""
    return [f"{label}+!{goal}{context} <- {'; '.join(steps)}.", *own.helpers]


def commitment(port: ClausePort, name: str, goal: str, arguments: list[tree.Node]) -> list[str]:
    """When the goal is had anew, and when it ends."""
    if name == "dg":
        return [f"+{goal} <- .succeed_goal({goal})."]
    found = [f"-!{goal} <- !{goal}.", f"+{goal} <- .succeed_goal({goal})."]
    ending, gives_up = COMMITMENTS[name]
    if gives_up and len(arguments) > 1:
        found.append(f"+{port.text(arguments[1])} <- .fail_goal({goal}).")
    if ending is not None and len(arguments) > ending:
        found.append(f"-{port.text(arguments[-1])} <- .succeed_goal({goal}).")
    return found


@section("mg")
def maintenance(port: ClausePort, node: tree.Section) -> str:
    port_arguments(port, node.literal.arguments[:1])
    goal = port.text(node.literal.arguments[0])
    port.note(node, "mg is written out", "pattern")
    return "\n".join([f"-{goal} <- !{goal}.", *map(port.source.clause_text, node.clauses)])


@section("sga")
def one_at_a_time(port: ClausePort, node: tree.Section) -> str:
    if len(node.literal.arguments) != 3:
        raise Todo("directive", "sga has three arguments", node)
    event, context, wanted = node.literal.arguments
    port_arguments(port, [wanted])
    port.formula(context)
    name = flat_name(wanted.name)
    busy_with, waits, serve = (port.additions.fresh(name + end) for end in ("_next", "_waits", "_serve"))
    goal, trigger, busy = port.text(wanted), event_text(port, event), f"{busy_with}_busy"
    marked = call(waits, [goal])
    text = "sga is written out: one goal at a time; a context and the first item of its plan may lie turns apart"
    port.note(node, text + ", so two may begin where two events come at once", "pattern")
    return "\n".join(
        [
            f"{trigger} : {port.text(context)} <- +{marked}; !!{serve}.",
            f"+!{serve} : {busy}.",
            f"+!{serve} : {marked} <- +{busy}; -{marked}; !{busy_with}({goal}); -{busy}; !!{serve}.",
            f"+!{serve}.",
            f"+!{busy_with}({goal}) <- !{goal}.",
            f"-!{busy_with}({goal}).",
        ]
    )


def event_text(port: ClausePort, event: tree.Node) -> str:
    """The trigger that an argument of a directive is: a belief, or an event in a string or in braces."""
    expected = event_of(event)
    if expected is not None:
        return expected.trigger.sign + expected.trigger.kind + expected.literal(port)
    literal(port, event, in_head=True)
    return "+" + port.text(event)
