"""`|&|` and `|||`: a goal of its own for each branch, and one that looks whether they are done."""
from __future__ import annotations

from typing import TYPE_CHECKING

from .. import tree
from ..notes import Todo
from ..tree import variables
from ..words import call
from .table import Answer, row, statement

if TYPE_CHECKING:
    from ..clause import ClausePort


class Names:
    """The names of a fork: its goal, and with what stands behind it those of its branches, its marks and its look-out."""

    def __init__(self, name: str, values: list[str]):
        self.name, self.values = name, values
        self.goal, self.join = call(name, values), call(name + "_join", values)

    def part(self, number: object) -> str:
        return call(self.name + "_part", [str(number), *self.values])

    def done(self, number: object) -> str:
        return call(self.name + "_done", [str(number), *self.values])


def handed_on(port: ClausePort, node: tree.Fork) -> list[str]:
    """The variables of the branches that stand before; those that stand behind alone can't come back."""
    before, inside = port.scope.before(node.start), variables(node)
    late = dict.fromkeys(use.name for use in port.scope.uses if use.place >= node.end and use.name in inside and use.name not in before)
    if late:
        raise Todo("fork", f"a value that a branch binds, {', '.join(late)}, is used behind the branches", node)
    return [it for it in inside if it in before]


@statement(tree.Fork)
@row(
    "`A |&| B`, `A ||| B`",
    "D",
    "`!!` for each branch, beliefs `g_fork_done`, a goal that looks; a branch that fails makes the whole fail; for `|||` the first drops the others",
    "two at once with the same values mix; the error is `ia_failed`. A value bound in a branch and used behind: X",
    tests="both both_fails either fork_todo",
)
def fork(port: ClausePort, node: tree.Fork) -> Answer:
    if len(set(node.signs)) > 1:
        raise Todo("fork", "|&| and ||| mixed", node)
    for_all, name = node.signs[0] == "|&|", port.fresh("_fork")
    names = Names(name, handed_on(port, node))
    port.additions.taken.update(name + end for end in ("_done", "_part", "_join"))
    helpers, numbers = len(port.helpers), range(1, len(node.branches) + 1)
    plans = []
    for number, branch in zip(numbers, node.branches):
        port.statement(branch)
        drops = "" if for_all else "".join(f".drop_desire({names.part(other)}); " for other in numbers if other != number)
        plans.append(f"+!{names.part(number)} <- {port.text(branch)}; {drops}+{names.done(number)}.")
    plans += [f"-!{names.part('I')} <- +{names.done('failed')}.", starting(names, numbers), *joining(names, numbers, for_all)]
    port.helpers[helpers:helpers] = plans
    mixed = "; two at once with the same values would be mixed up" if names.values else ""
    text = f"{node.signs[0]} is the goal {name}: its branches are intentions of their own, and a third looks whether they are done{mixed}"
    port.note(node, text, "fork")
    return "!" + names.goal


def starting(names: Names, numbers: range) -> str:
    clear = f".abolish({names.done('_')})"
    starts = "; ".join(f"!!{names.part(number)}" for number in numbers)
    return f"+!{names.goal} <- {clear}; {starts}; !{names.join}; {clear}."


def joining(names: Names, numbers: range, for_all: bool) -> list[str]:
    """The plans of the goal that looks."""
    done, failed = [names.done(number) for number in numbers], names.done("failed")
    if for_all:
        plans = [f"+!{names.join} : {failed} <- .drop_desire({names.part('_')}); .fail.", f"+!{names.join} : {' & '.join(done)}."]
    else:
        plans = [f"+!{names.join} : {' | '.join(done)}.", f"+!{names.join} : {failed} <- .fail."]
    return plans + [f"+!{names.join} <- !{names.join}."]
