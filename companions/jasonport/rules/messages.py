"""`.send`: its receivers, its verbs, and what it sends."""
from __future__ import annotations

from typing import TYPE_CHECKING

from .. import tree
from ..grammar import Parser
from ..lexer import Fault
from ..notes import Todo
from ..tree import Node, bare, variables
from ..words import is_legal, one_line, quoted
from .table import Answer, action, row

if TYPE_CHECKING:
    from ..clause import ClausePort

VERBS = ("tell", "untell", "achieve", "unachieve", "askOne", "askAll", "askHow", "tellHow", "untellHow")
MAKING = (".concat", ".findall", ".setof")


@action("send")
@row("`tellRule`, `untellRule`, `signal`", "X", "", tests="verb_todo")
def send(port: ClausePort, node: tree.Literal, in_context: bool) -> Answer:
    if in_context or len(node.arguments) < 3:
        raise Todo("ia", f".send with {len(node.arguments)} arguments", node)
    check_verb(node)
    port.term(node.arguments[1])
    content(port, node)
    for answer in node.arguments[3:4]:
        port.term(answer)
    if len(node.arguments) > 4:
        without_time_out(port, node)
    receiver = bare(node.arguments[0])
    told = ", ".join(map(port.text, node.arguments[1:4]))
    if isinstance(receiver, tree.ListTerm) and not receiver.tail:
        only_told(node)
        return "; ".join(f".send({receiver_name(port, it)}, {told})" for it in receiver.items) or "true"
    if isinstance(receiver, tree.Variable):
        text = to_variable(port, node, receiver, told)
        if text is not None:
            return text
    name = receiver_name(port, receiver)
    if isinstance(receiver, tree.Named) and name == receiver.name and len(node.arguments) <= 4:
        return port.text(node)
    return f".send({name}, {told})"


def check_verb(node: tree.Literal) -> None:
    verb = node.arguments[1].name if isinstance(node.arguments[1], tree.Literal) else None
    if verb in ("tellRule", "untellRule", "signal", "tellRules"):
        raise Todo("message", f"the verb {verb} is not there: a plan for +?g by tellHow does what a rule did", node)
    if verb and verb not in VERBS:
        raise Todo("message", f"the verb {verb}", node)


@row("the time-out of a question", "D", "dropped", "it waits for its answer", tests="ask_timeout")
def without_time_out(port: ClausePort, node: tree.Literal) -> None:
    port.note(node.arguments[4], "the time-out of the question is dropped: it waits for its answer", "wait")


# ---- What is sent


@row(
    "`tellHow {plan}`, `askHow {+!g}`",
    "E",
    "a string; the goal",
    "with values of the sender in it, or with `if` and others: X",
    tests="tell_how tell_how_todo",
)
def content(port: ClausePort, node: tree.Literal) -> None:
    sent, verb = bare(node.arguments[2]), getattr(node.arguments[1], "name", None)
    if isinstance(sent, tree.Braces):
        if sent.kind != "plan" or verb not in ("tellHow", "untellHow", "askHow"):
            raise Todo("message", "a rule or a body as what is sent", node)
        if verb == "askHow":
            trigger = sent.inside[0].trigger
            if (trigger.sign, trigger.kind) != ("+", "!"):
                raise Todo("message", "askHow of another trigger than a goal", sent)
            port.write(sent, port.text(trigger.literal))
        else:
            port.write(sent, quoted(plan_text(port, sent)))
        port.note(sent, f"a plan in braces is {'its goal' if verb == 'askHow' else 'a string'}", "message")
    elif not (isinstance(sent, tree.String) and verb == "askHow"):
        port.term(node.arguments[2])


def plan_text(port: ClausePort, sent: tree.Braces) -> str:
    """A plan that is sent, in one line; it has to be one that needs no port of its own."""
    if port.scope.outside(sent).intersection(variables(sent)):
        raise Todo("message", "a plan that is sent with values of this one", sent)
    text = one_line(port.original(sent.inside[0])) + "."
    try:
        clause = Parser(text).clause()
    except Fault:
        clause = None
    if clause is None or any(tree.of_kind(clause, tree.If, tree.Loop, tree.Fork, tree.Braces)):
        raise Todo("message", "the plan that is sent needs a port of its own", sent)
    return text


# ---- Receivers


def only_told(node: tree.Literal) -> None:
    if len(node.arguments) > 3:
        raise Todo("message", "a question to several, with an answer", node)


@row(
    '`.send` to a list; to `"bob"`',
    "E",
    "`send_all`, or several; the atom",
    "a question with an answer: X",
    tests="sendlist send_found send_string send_todo",
)
def receiver_name(port: ClausePort, node: Node) -> str:
    node = bare(node)
    if isinstance(node, tree.String):
        name = port.porting.agent_names.get(node.text[1:-1], node.text[1:-1])
        if not is_legal(name):
            raise Todo("name", f"no name of an agent here: {node.text}", node)
        return name
    if isinstance(node, tree.Literal) and not node.arguments:
        return port.porting.agent_names.get(node.name.strip("'"), node.name.strip("'"))
    if isinstance(node, tree.Variable):
        return node.name
    raise Todo("message", "a receiver that is no name", node)


def to_variable(port: ClausePort, node: tree.Literal, receiver: tree.Variable, told: str) -> Answer:
    """To a variable that stands for a text or a list; nothing where that is not known of it."""
    calls = [it for it in tree.of_kind(port.clause, tree.Literal) if it.name in MAKING and it.arguments]
    made = [it for it in calls if is_variable(it.arguments[-1], receiver.name)]
    if not made:
        return None
    if made[0].name == ".concat":
        return to_text(port, receiver, told)
    only_told(node)
    port.note(receiver, "to each of a list: the goal send_all", "message")
    return f"!{port.library('send_all')}({receiver.name}, {told})"


def is_variable(node: Node, name: str) -> bool:
    return isinstance(node, tree.Variable) and node.name == name


@row(
    "`.send` to a name from `.concat`",
    "E",
    "a table of the project's agents",
    "without a project: X",
    tests="send_computed send_computed_todo",
)
def to_text(port: ClausePort, receiver: tree.Variable, told: str) -> str:
    if not port.porting.agents:
        raise Todo("name", "a name of an agent that is computed, and no project that tells all names", receiver)
    name, table = port.variable("Ag"), port.library("agent_name")
    port.additions.clauses += [f"{table}({quoted(agent)}, {agent}) :- true." for agent in port.porting.agents]
    port.note(receiver, f"a name that is computed is looked up: {table}(TEXT, NAME)", "name")
    return f"?{table}({receiver.name}, {name}); .send({name}, {told})"
