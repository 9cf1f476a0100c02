"""`.wait` and `.at`: there is no clock, so a goal counts its turns, or looks at each of them."""
from __future__ import annotations

import re
from typing import TYPE_CHECKING, NamedTuple, Optional

from .. import tree
from ..grammar import Parser
from ..lexer import Fault
from ..notes import Todo
from ..tree import Node, bare, variables
from ..words import call
from .names import literal
from .table import Answer, action, row
from .values import constant

if TYPE_CHECKING:
    from ..clause import ClausePort

MILLISECONDS = {"s": 1000, "m": 60_000, "h": 3_600_000, "d": 86_400_000}


def turns(port: ClausePort, time: Node) -> str:
    """So many turns for a time in milliseconds, at least one."""
    value = constant(time)
    if value is not None:
        return str(in_turns(port, value))
    port.term(time)
    return f"({port.text(time)}) div {port.porting.turn}"


def in_turns(port: ClausePort, time: int) -> int:
    return max(1, -(-time // port.porting.turn))


class Expected(NamedTuple):
    """An event that a plan in braces or a string names. `text` is its literal where that stands in a string."""

    trigger: tree.Trigger
    text: Optional[str]

    def literal(self, port: ClausePort) -> str:
        """Its literal as it is written."""
        if self.text is not None:
            return self.text
        literal(port, self.trigger.literal)
        return port.text(self.trigger.literal)


def event_of(node: Node) -> Optional[Expected]:
    node = bare(node)
    if isinstance(node, tree.Braces) and node.kind == "plan":
        return Expected(node.inside[0].trigger, None)
    if not isinstance(node, tree.String):
        return None
    text = node.text[1:-1].replace('\\"', '"')
    try:
        parser = Parser(text)
        trigger = parser.trigger()
    except Fault:
        return None
    return Expected(trigger, text[trigger.literal.start : trigger.literal.end]) if parser.is_over else None


class Awaited(NamedTuple):
    """What is waited for: a formula, its variables, and what is told of it."""

    formula: str
    variables: list[str]
    told: str


def awaited(port: ClausePort, node: tree.Literal) -> Awaited:
    what = bare(node.arguments[0])
    event = event_of(what)
    outside = port.scope.outside(what) | port.scope.before(node.start)
    if event is None:
        port.formula(what)
        return Awaited(port.text(node.arguments[0]), [it for it in variables(what) if it in outside], "until the formula holds")
    trigger = event.trigger
    if trigger.kind or not isinstance(trigger.literal, tree.Literal):
        raise Todo("wait", ".wait for the event of a goal: write what follows as a plan for it", node)
    text, held = event.literal(port), trigger.sign == "+"
    known = port.scope.names if isinstance(what, tree.String) else outside
    told = f"until the belief is {'held' if held else 'gone'}; it may be so already, where Jason waits for the next event"
    return Awaited(text if held else f"not {text}", [it for it in variables(trigger.literal) if it in known], told)


@action("wait")
@row("`.wait(MS)`", "D", "`!pause(MS / turn)`; computed: `(E) div turn`", "turns, no time", tests="either wait_computed")
def wait(port: ClausePort, node: tree.Literal, in_context: bool) -> Answer:
    if in_context or not node.arguments:
        raise Todo("wait", ".wait in a context", node)
    if len(node.arguments) == 1 and isinstance(bare(node.arguments[0]), (tree.Number, tree.Variable, tree.Arithmetic)):
        count = turns(port, node.arguments[0])
        port.note(node, f"there is no clock: {count} turns of this intention (--turn {port.porting.turn})", "wait")
        return f"!{port.library('pause')}({count})"
    return wait_until(port, node)


@row(
    "`.wait(F)`, `.wait(F, MS)`, `.wait({+b}, MS, T)`",
    "D",
    "a goal that looks, or looks so many times",
    "an event `+b`: what is held already counts, and what comes and goes between two looks is missed",
    tests="wait_belief wait_event wait_fail wait_elapsed wait_gone",
)
def wait_until(port: ClausePort, node: tree.Literal) -> str:
    what = awaited(port, node)
    name = port.fresh("_wait")
    if len(node.arguments) == 1:
        goal = call(name, what.variables)
        port.helpers += [f"+!{goal} : {what.formula}.", f"+!{goal} <- !{goal}."]
        port.note(node, f".wait looks at each of its turns, {what.told}", "wait")
        return "!" + goal
    looks = turns(port, node.arguments[1])
    return wait_and_fail(port, node, name, what, looks) if len(node.arguments) == 2 else wait_and_tell(port, node, name, what, looks)


def wait_and_fail(port: ClausePort, node: tree.Literal, name: str, what: Awaited, looks: str) -> str:
    left = port.scope.new("N")
    port.helpers += [
        f"+!{call(name, ['_', *what.variables])} : {what.formula}.",
        f"+!{call(name, [left, *what.variables])} : {left} > 0 <- !{call(name, [left + ' - 1', *what.variables])}.",
    ]
    port.note(node, f".wait looks {looks} times, {what.told}; then it fails, with no_applicable", "wait")
    return "!" + call(name, [looks, *what.variables])


def wait_and_tell(port: ClausePort, node: tree.Literal, name: str, what: Awaited, looks: str) -> str:
    """The third argument gets the time that went by."""
    port.term(node.arguments[2])
    elapsed, turn = port.text(node.arguments[2]), port.porting.turn
    left, time = port.scope.new("N"), port.scope.new("D")
    port.helpers += [
        f"+!{call(name, [left, time, *what.variables])} : {what.formula} & {time} = ({looks} - {left}) * {turn}.",
        f"+!{call(name, [left, time, *what.variables])} : {left} > 0 <- !{call(name, [left + ' - 1', time, *what.variables])}.",
        f"+!{call(name, ['_', time] + ['_'] * len(what.variables))} : {time} = {looks} * {turn}.",
    ]
    port.note(node, f".wait looks {looks} times, {what.told}; then it goes on; {elapsed} counts {turn} for each look", "wait")
    return "!" + call(name, [looks, elapsed, *what.variables])


def time_of_at(node: tree.Literal) -> Optional[int]:
    """The milliseconds of `"now +K UNIT"`, and of `"now"`."""
    when = node.arguments[0]
    match = re.fullmatch(r'"\s*now\s*\+?\s*(\d+)\s*(\w*)\s*"', when.text) if isinstance(when, tree.String) else None
    if not match:
        return None
    unit = match.group(2)
    return int(match.group(1)) * (1 if unit.startswith("mil") else MILLISECONDS.get(unit[:1], 1))


@action("at")
@row('`.at("now +K s", {+!g})`', "D", "`!!g_at`: a pause, and then `!!g`", "turns, no time", tests="at")
def at(port: ClausePort, node: tree.Literal, in_context: bool) -> Answer:
    event = event_of(node.arguments[1]) if len(node.arguments) >= 2 else None
    time = time_of_at(node) if event else None
    if in_context or event is None or time is None or (event.trigger.sign, event.trigger.kind) != ("+", "!"):
        raise Todo("clock", '.at that is no "now +K UNIT" with a goal', node)
    text, values, count = event.literal(port), variables(event.trigger.literal), in_turns(port, time)
    goal = call(port.fresh("_at"), values)
    port.helpers.append(f"+!{goal} <- !{port.library('pause')}({count}); !!{text}.")
    port.note(node, f".at: there is no clock; the goal comes after {count} turns of an intention (--turn {port.porting.turn})", "wait")
    return "!!" + goal
