"""Triggers, and the errors of failure plans."""
from __future__ import annotations

from typing import TYPE_CHECKING, Optional

from .. import tree
from ..tree import variables
from ..words import quoted
from .names import literal
from .table import row

if TYPE_CHECKING:
    from ..clause import ClausePort

# Jason's errors by the names that they have here.
ERRORS = {
    "test_goal_failed": "test_failed",
    "constraint_failed": "test_failed",
    "wrong_arguments": "ia_failed",
    "deadline_reached": "ia_failed",
    "unknown": "ia_failed",
}
NOT_THERE = ("error_msg", "code", "code_src", "code_line", "env_failure_reason", "ia_failed", "reason")


def trigger(port: ClausePort, plan: tree.Plan) -> None:
    node = plan.trigger
    with port.asked_apart() as questions:
        if node.sign == "-" and node.kind and node.literal.annotations:
            annotations(port, plan)
        literal(port, node.literal, in_head=True)
    if questions:
        port.extra_context = " & ".join(question.formula for question in questions)
        port.note(node.literal, "arithmetic in a trigger is asked in the context", "arith")


def error_of(annotation: tree.Node) -> Optional[tree.Node]:
    """What stands in `error(..)`."""
    return annotation.arguments[0] if tree.is_literal(annotation, "error") and annotation.arguments else None


def annotations(port: ClausePort, plan: tree.Plan) -> None:
    """The annotations of a failure plan: its error alone, and those that are none of Jason's."""
    found = plan.trigger.literal.annotations
    gone = [it for it in found.items if tree.is_literal(it, *NOT_THERE)]
    error = None
    for annotation in found.items:
        error = error_of(annotation) or error
        if tree.is_literal(error_of(annotation), *ERRORS):
            known_error(port, plan, error_of(annotation))
    if gone:
        for annotation in found.items:
            if annotation not in gone:
                port.term(annotation, in_head=True)
        kept = ", ".join(port.text(it) for it in found.items if it not in gone)
        told = [text for annotation in gone for text in replaced(port, plan, annotation, error)]
        port.write(found, f"[{kept}]" if kept else "")
        names = ", ".join(it.name for it in gone)
        port.note(gone[0], f"a failure has error(E) alone: {names} dropped{'; in the body ' if told else ''}{', '.join(told)}", "errmsg")


@row(
    "`error(test_goal_failed)`, `constraint_failed`",
    "D",
    "`error(test_failed)`",
    "a second plan that falls together with the first: X",
    tests="errors error_twins",
)
def known_error(port: ClausePort, plan: tree.Plan, error: tree.Literal) -> None:
    here = ERRORS[error.name]

    def is_twin(other: tree.Plan) -> bool:
        errors = [error_of(it) for it in other.trigger.literal.annotations.items] if other.trigger.literal.annotations else []
        return any(tree.is_literal(it) and it.name != error.name and ERRORS.get(it.name, it.name) == here for it in errors)

    earlier = [it for it in port.source.by_event.get(plan.trigger.event, []) if it.start < plan.start]
    if any(map(is_twin, earlier)):
        port.todo(error, "an earlier plan is for an error that has this name here, too: give the question a failure plan of its own, -?g", "error")
    else:
        same = ", ".join(name for name, as_here in ERRORS.items() if as_here == here and name != error.name)
        port.note(error, f"the error {error.name} is {here} here, as is that of {same}", "error")
    port.write(error, here)


@row("`error_msg(M)`, `code(C)` and others", "D", 'dropped; M is the error, others `"?"`', tests="error_message")
def replaced(port: ClausePort, plan: tree.Plan, annotation: tree.Literal, error: Optional[tree.Node]) -> list[str]:
    """Puts something else in place of the variables of an annotation that is not there; what is told of them."""
    name = error.name if isinstance(error, tree.Variable) else None
    told = []
    for variable in variables(annotation):
        places = [it for it in tree.of_kind(plan.body, tree.Variable) if it.name == variable]
        is_error = bool(name) and annotation.name == "error_msg"
        for place in places:
            port.write(place, name if is_error else quoted("?"))
        if places:
            told.append(f"{variable} is {'the error' if is_error else quoted('?')}")
    return told
