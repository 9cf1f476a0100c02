"""What a Jason source is made of. Each node has the places where it begins and ends; what it is made of stands in the order of the places."""
from __future__ import annotations

from dataclasses import dataclass, field
from typing import Iterator, NamedTuple, Optional, Sequence, Union


@dataclass(eq=False)
class Node:
    """A piece of a source, from `start` to before `end`."""

    start: int
    end: int

    def parts(self) -> Sequence[Node]:
        return ()

    def walk(self) -> Iterator[Node]:
        """This node and all that it is made of, whole ones before their parts."""
        waiting = [self]
        while waiting:
            node = waiting.pop()
            yield node
            waiting.extend(reversed(node.parts()))


# ---- Terms


@dataclass(eq=False)
class Number(Node):
    text: str


@dataclass(eq=False)
class String(Node):
    text: str


@dataclass(eq=False)
class ListTerm(Node):
    items: list[Node]
    tail: Optional[Node]

    def parts(self) -> Sequence[Node]:
        return self.items + ([self.tail] if self.tail else [])


@dataclass(eq=False)
class Named(Node):
    """A variable or a literal. A namespace is a name, or empty where `::` stands alone; `name_end` is the place behind the name,
    `behind_name` that behind parentheses with nothing in them as well."""

    name: str
    name_end: int
    behind_name: int
    negated: bool
    namespace: Optional[str]
    arguments: list[Node]
    annotations: Optional[ListTerm]

    def parts(self) -> Sequence[Node]:
        return self.arguments + ([self.annotations] if self.annotations else [])


    @property
    def functor(self) -> Functor:
        return Functor(self.name, len(self.arguments))


class Variable(Named):
    pass


class Literal(Named):
    @property
    def is_inner(self) -> bool:
        """Whether it is an internal action, or has a dot in its name for another reason."""
        return "." in self.name and self.name[0] != "'"


class Functor(NamedTuple):
    """A name and how many arguments it has."""

    name: str
    count: int

    def __str__(self) -> str:
        return f"{self.name}/{self.count}"


@dataclass(eq=False)
class Paren(Node):
    inside: Node

    def parts(self) -> Sequence[Node]:
        return [self.inside]


class Negative(Paren):
    """A number or a term behind a minus."""


class Positive(Paren):
    """A term behind a plus."""


class Not(Paren):
    """A formula behind `not`."""


@dataclass(eq=False)
class Pair(Node):
    sign: str
    left: Node
    right: Node

    def parts(self) -> Sequence[Node]:
        return [self.left, self.right]


class Arithmetic(Pair):
    pass


class Relation(Pair):
    pass


@dataclass(eq=False)
class Chain(Node):
    """Formulas with `&` between them, or with `|`."""

    sign: str
    members: list[Node]

    def parts(self) -> Sequence[Node]:
        return self.members


@dataclass(eq=False)
class Braces(Node):
    """A plan, a rule or a body as a term."""

    kind: str
    inside: list[Node]

    def parts(self) -> Sequence[Node]:
        return self.inside


# ---- Bodies


@dataclass(eq=False)
class Statement(Node):
    """What stands between two `;`. `separator` is the `;` behind it, where there is one."""

    separator: Optional[Node] = field(default=None, init=False)


@dataclass(eq=False)
class Item(Statement):
    """One step: a sign, which is empty for actions and relations, and what it is about."""

    sign: str
    subject: Node

    def parts(self) -> Sequence[Node]:
        return [self.subject]


@dataclass(eq=False)
class Body(Node):
    """Steps, one behind the other. `inside` are the places behind `{` and before `}`, where they stand between such."""

    items: list[Statement]
    inside: Optional[tuple[int, int]] = None

    def parts(self) -> Sequence[Node]:
        return [part for item in self.items for part in (item, item.separator) if part]


@dataclass(eq=False)
class Block(Statement):
    body: Body

    def parts(self) -> Sequence[Node]:
        return [self.body]


@dataclass(eq=False)
class If(Statement):
    condition: Node
    then: Body
    other: Union[If, Body, None]

    def parts(self) -> Sequence[Node]:
        return [part for part in (self.condition, self.then, self.other) if part]


@dataclass(eq=False)
class Loop(Statement):
    condition: Node
    body: Body

    def parts(self) -> Sequence[Node]:
        return [self.condition, self.body]


class For(Loop):
    pass


class While(Loop):
    pass


@dataclass(eq=False)
class Fork(Statement):
    """Branches with `|&|` and `|||` between them."""

    signs: list[str]
    branches: list[Statement]

    def parts(self) -> Sequence[Node]:
        return self.branches


# ---- Clauses


@dataclass(eq=False)
class Clause(Node):
    pass


@dataclass(eq=False)
class Belief(Clause):
    literal: Named

    def parts(self) -> Sequence[Node]:
        return [self.literal]


class Goal(Belief):
    pass


class Directive(Belief):
    pass


@dataclass(eq=False)
class Rule(Clause):
    head: Named
    body: Node

    def parts(self) -> Sequence[Node]:
        return [self.head, self.body]


@dataclass(eq=False)
class Section(Clause):
    """Clauses between `{begin ..}` and `{end}`."""

    literal: Literal
    clauses: list[Clause]

    def parts(self) -> Sequence[Node]:
        return [self.literal, *self.clauses]


@dataclass(eq=False)
class Label(Node):
    name: Optional[str]
    literal: Optional[Named]
    annotations: Optional[ListTerm]

    def parts(self) -> Sequence[Node]:
        return [self.literal] if self.literal else []


class Event(NamedTuple):
    """What a plan is for: the sign, the kind (`!`, `?` or none), the name and how many arguments."""

    sign: str
    kind: str
    name: str
    count: int


@dataclass(eq=False)
class Trigger(Node):
    sign: str
    kind: str
    literal: Named

    def parts(self) -> Sequence[Node]:
        return [self.literal]

    @property
    def event(self) -> Event:
        return Event(self.sign, self.kind, self.literal.name, len(self.literal.arguments))


@dataclass(eq=False)
class Plan(Clause):
    label: Optional[Label]
    trigger: Trigger
    goal_condition: Optional[Node]
    context: Optional[Node]
    body: Optional[Body]
    inner: Optional[Braces]

    def parts(self) -> Sequence[Node]:
        return [part for part in (self.label, self.trigger, self.goal_condition, self.context, self.body, self.inner) if part]


# ---- What is asked of nodes


class Use(NamedTuple):
    """A variable where it stands."""

    name: str
    place: int


def uses(node: Node) -> list[Use]:
    """The variables of a node where they stand, but for `_`."""
    return [Use(it.name, it.start) for it in node.walk() if isinstance(it, Variable) and it.name != "_"]


def variables(*nodes: Optional[Node]) -> list[str]:
    """The names of the variables of nodes, each once, in the order in which they come first."""
    return list(dict.fromkeys(use.name for node in nodes if node for use in uses(node)))


def bare(node: Node) -> Node:
    """A node without the parentheses around it."""
    while type(node) is Paren:
        node = node.inside
    return node


def conjuncts(node: Node) -> list[Node]:
    """The formulas of which all have to hold."""
    inside = bare(node)
    if isinstance(inside, Chain) and inside.sign == "&":
        return [part for member in inside.members for part in conjuncts(member)]
    return [node]


def is_literal(node: Optional[Node], *names: str) -> bool:
    """Whether a node is a literal, of one of these names where some are given."""
    return isinstance(node, Literal) and (not names or node.name in names)


def is_truth(node: Node) -> bool:
    """Whether a node is `true` or `false`, and nothing more."""
    return isinstance(node, Literal) and node.name in ("true", "false") and not node.parts() and node.namespace is None and not node.negated


def of_kind(node: Optional[Node], *kinds: type) -> Iterator:
    """The nodes of these kinds in a node."""
    return (it for it in (node.walk() if node else ()) if isinstance(it, kinds))
