"""Labels: jasonrun has their names alone."""
from __future__ import annotations

import re
from typing import TYPE_CHECKING

from .. import tree
from ..words import flat_name
from .table import row

if TYPE_CHECKING:
    from ..clause import ClausePort
    from ..source import Source

CHOOSING = ("all_unifs", "pref", "parallel")
CHANGING = ("+", "-", "-+", "++", "--", "+<", "+>")


@row("other annotations of labels", "D", "dropped", "`all_unifs`, `pref`, `parallel`: X", tests="label_dropped label_todo")
def label(port: ClausePort, node: tree.Label) -> None:
    names = [it.name if isinstance(it, tree.Named) else "" for it in node.annotations.items] if node.annotations else []
    if not names and node.name == legal_label(node.name or "") and not (node.literal and node.literal.arguments):
        return
    for name in names:
        if name == "atomic":
            atomic(port, node)
        elif name in CHOOSING:
            port.todo(node, f"the annotation {name} of the label is dropped: it chose another plan or solution", "label")
        else:
            port.note(node, f"the annotation {name} of the label is dropped", "label")
    port.write(node, "@" + legal_label(node.name) if node.name else "")


def legal_label(name: str) -> str:
    return name if re.fullmatch(r"[a-z]\w*", name, re.A) else "l_" + flat_name(name.strip("'")).strip("_")


@row(
    "`@l[atomic]`",
    "X",
    "dropped; the todo names the beliefs that other plans, or a second instance of this one, change",
    "a note where there are none",
    tests="atomic_safe atomic_race",
)
def atomic(port: ClausePort, node: tree.Label) -> None:
    source, own = port.source, Effects(port.source).of(port.clause)
    disturbed: set[str] = set()
    for plan in source.plans:
        if plan is port.clause:
            disturbed |= own.asked & own.changed
        else:
            disturbed |= (own.asked | own.changed) & Effects(source).of(plan).changed
    if disturbed:
        names = ", ".join(sorted(disturbed))
        text = f"no plan is atomic here, and other steps may change {names} between those of this one: use a slot, or one goal that serves all"
        port.todo(node, text, "atomic")
    else:
        port.note(node, "no plan is atomic here; nothing in this source changes what this one asks for or changes", "atomic")


class Effects:
    """What plans ask for and what they change, with the goals that they achieve: names of beliefs."""

    def __init__(self, source: Source):
        self.source = source
        self.asked: set[str] = set()
        self.changed: set[str] = set()
        self.seen: set[tree.Node] = set()

    def of(self, plan: tree.Node) -> Effects:
        if plan in self.seen or not isinstance(plan, tree.Plan):
            return self
        self.seen.add(plan)
        self.asked |= {node.name for node in tree.of_kind(plan.context, tree.Literal) if node.name[0] != "."}
        for step in tree.of_kind(plan.body, tree.Item):
            if isinstance(step.subject, tree.Literal):
                self.step(step.sign, step.subject)
        return self

    def step(self, sign: str, subject: tree.Literal) -> None:
        if sign == "?":
            self.asked.add(subject.name)
        elif sign in CHANGING:
            self.changed.add(subject.name)
        elif sign == "!":
            for plan in self.source.plans:
                if plan.trigger.kind == "!" and plan.trigger.literal.name == subject.name:
                    self.of(plan)
        elif subject.name == ".abolish" and tree.is_literal(next(iter(subject.arguments), None)):
            self.changed.add(subject.arguments[0].name)
