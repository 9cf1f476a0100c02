"""Internal actions: those that jasonrun has, and those that are spelled otherwise there."""
from __future__ import annotations

import re
from typing import TYPE_CHECKING, Optional

from .. import tree
from ..notes import Todo
from ..tree import bare
from ..words import blank_call, call
from .names import literal, written_name
from .table import ACTIONS, Answer, action, row

if TYPE_CHECKING:
    from ..clause import ClausePort

# Those that stay, with the numbers of arguments that they may have; none: any. The first change nothing, and may stand in contexts.
PURE: dict[str, Optional[tuple[int, ...]]] = {
    **dict.fromkeys(("member", "count", "length", "reverse", "max", "min"), (2,)),
    **dict.fromkeys(("findall", "nth"), (3,)),
    **dict.fromkeys(("my_name", "ground", "number", "string", "list", "atom", "literal"), (1,)),
    "concat": None,
}
ABOUT_GOALS = ("desire", "intend", "drop_desire", "drop_intention", "succeed_goal", "fail_goal")
ACTING: dict[str, Optional[tuple[int, ...]]] = {
    **dict.fromkeys(ABOUT_GOALS + ("abolish",), (1,)),
    **dict.fromkeys(("fail", "stopMAS"), (0,)),
    "broadcast": (2,),
    "print": None,
    "send": None,
}
# Those that are not there, by their codes.
GONE = {
    "clock": ("date", "time"),
    "random": ("random", "shuffle"),
    "suspend": ("suspend", "resume", "suspended"),
    "agents": ("create_agent", "kill_agent", "all_names"),
    "string": ("term2string", "substring"),
    "inspect": ("current_intention",),
}
WHY_GONE = {
    "clock": "there is no clock: %s",
    "random": "%s: .random(R); X = math.floor(R * N) alone is rewritten",
    "suspend": "no intention can be suspended: %s",
    "agents": "agents are neither made, ended nor listed while running: %s",
    "string": "nothing takes strings apart: %s",
    "inspect": "%s: jasonlook mind shows intentions",
    "ia": "there is no internal action %s",
}


def inner_action(port: ClausePort, node: tree.Literal, in_context: bool) -> Answer:
    """Ports an internal action: by its rule, else as one that jasonrun has."""
    if node.name[0] != ".":
        raise Todo("java", f"an internal action of its own, {node.name}: a rule, or an action of the world", node)
    if node.namespace is not None or node.negated or node.annotations:
        raise Todo("ia", f"{node.name} with a namespace, ~ or annotations", node)
    name = node.name[1:]
    if in_context and name in ACTING:
        raise Todo("intend" if name in ("desire", "intend") else "ia", f"{node.name} in a context", node)
    rule = ACTIONS.get(name)
    text = rule(port, node, in_context) if rule else None
    if text is None:
        kept(port, node)
    return text


@row(
    "internal actions of one's own, `jia.x`; `.suspend`, `.create_agent`, `.map`, `.term2string`, `.setof` and others",
    "X",
    "",
    tests="suspend neg_todo if_todo gone",
)
def kept(port: ClausePort, node: tree.Literal) -> None:
    """An internal action that jasonrun has, with arguments that it takes."""
    name = node.name[1:]
    if name not in PURE and name not in ACTING:
        code = next((code for code, names in GONE.items() if name in names), "ia")
        raise Todo(code, WHY_GONE[code] % f"{node.name}/{len(node.arguments)}", node)
    counts = PURE[name] if name in PURE else ACTING[name]
    if counts is not None and len(node.arguments) not in counts:
        raise Todo("ia", f"{node.name} with {len(node.arguments)} arguments", node)
    if name in ABOUT_GOALS + ("abolish",) and isinstance(node.arguments[0], tree.Literal):
        literal(port, node.arguments[0])
        passed_by(port, node, name)
    else:
        for argument in node.arguments:
            port.term(argument)


@row(
    "`.succeed_goal(g)`, `.drop_intention(g)` and others of a goal with a failure plan",
    "S",
    "note `[below]`",
    "a goal that failed is gone while its failure plan runs",
    tests="below",
)
def passed_by(port: ClausePort, node: tree.Literal, name: str) -> None:
    """Tells once that a goal which failed is not found while its failure plan runs."""
    source, goal = port.source, node.arguments[0].name
    has_failure_plan = any((plan.trigger.sign, plan.trigger.kind, plan.trigger.literal.name) == ("-", "!", goal) for plan in source.plans)
    if name in ABOUT_GOALS and name not in source.passed_by and has_failure_plan:
        source.passed_by.add(name)
        text = f"a goal {goal} that failed is not there any more while its failure plan runs: {node.name} passes it by (a goal above it stays)"
        port.note(node, text, "below")


# ---- Those that are spelled otherwise


@action("println")
@row("`.println`, `.puts`, `.log`", "E", "`.print`", tests="println puts log")
def print_line(port: ClausePort, node: tree.Literal, in_context: bool) -> Answer:
    for argument in node.arguments:
        port.term(argument)
    return call(".print", map(port.text, node.arguments))


@action("puts")
def print_filled(port: ClausePort, node: tree.Literal, in_context: bool) -> Answer:
    """Texts with `#{X}` in them, where each of these is a variable."""
    if in_context or not all(isinstance(bare(it), tree.String) for it in node.arguments):
        return None
    texts = [bare(it).text.strip('"') for it in node.arguments]
    parts = [part for text in texts for part in re.split(r"(#\{\s*[A-Z_]\w*\s*\})", text) if part]
    shown = []
    for part in parts:
        filled = re.fullmatch(r"#\{\s*([A-Z_]\w*)\s*\}", part)
        if not filled and "#{" in part:
            return None
        shown.append(filled.group(1) if filled else f'"{part}"')
    port.note(node, ".puts is .print", "library")
    return call(".print", shown)


@action("log")
def log(port: ClausePort, node: tree.Literal, in_context: bool) -> Answer:
    for argument in node.arguments[1:]:
        port.term(argument)
    port.note(node, ".log is .print", "library")
    return call(".print", map(port.text, node.arguments[1:]))


@action("perceive")
@row(
    "`.perceive`, `.stopMAS(0)`, `.fail(..)`, a `;` before the dot",
    "E",
    "dropped, `.stopMAS`, `.fail`, dropped",
    "a failure by `.fail` has the error `ia_failed`",
    tests="perceive semi",
)
def perceive(port: ClausePort, node: tree.Literal, in_context: bool) -> Answer:
    port.note(node, ".perceive is dropped: each cycle perceives", "library")
    return "true"


@action("stopMAS")
def stop(port: ClausePort, node: tree.Literal, in_context: bool) -> Answer:
    return ".stopMAS" if node.arguments else None


@action("fail")
def fail(port: ClausePort, node: tree.Literal, in_context: bool) -> Answer:
    if not node.arguments:
        return None
    port.note(node, "the annotations of .fail are dropped: its error is ia_failed", "error")
    return ".fail"


@action("current_intention")
@row(
    "`.current_intention(I)`, where I is only printed",
    "D",
    '`I = "?"`',
    "`jasonlook mind` shows intentions; else X",
    tests="intention_printed",
)
def current_intention(port: ClausePort, node: tree.Literal, in_context: bool) -> Answer:
    if in_context or len(node.arguments) != 1 or not isinstance(node.arguments[0], tree.Variable):
        return None
    variable = node.arguments[0]
    where = lambda top: [it for it in tree.of_kind(top, tree.Variable) if it.name == variable.name and it is not variable]
    prints = [it for it in tree.of_kind(port.clause, tree.Literal) if it.name in (".print", ".println", ".log")]
    if len(where(port.clause)) != sum(len(where(it)) for it in prints):
        return None
    port.note(node, '.current_intention is only printed here, and is "?": jasonlook mind shows intentions', "inspect")
    return f'{variable.name} = "?"'


@action("drop_all_desires", "drop_all_intentions")
@row(
    "`.drop_all_intentions`, `_desires`",
    "D",
    "one step for each goal that the source names",
    "goals that only messages bring",
    tests="drop_all",
)
def drop_all(port: ClausePort, node: tree.Literal, in_context: bool) -> Answer:
    """Each goal that the source names is dropped, that of the plan last."""
    one = ".drop_desire" if node.name == ".drop_all_desires" else ".drop_intention"
    port.note(node, f"{node.name} is {one} of each goal that this source names; this intention is dropped last", "library")
    own = port.clause.trigger.literal.functor if isinstance(port.clause, tree.Plan) else None
    goals = sorted(port.source.goals.values(), key=lambda goal: goal.functor == own)
    return "; ".join(f"{one}({blank_call(written_name(port.source, goal, True), len(goal.arguments))})" for goal in goals) or "true"
