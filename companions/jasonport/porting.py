"""The port of a whole project: what its sources share, and the files that come of it."""
from __future__ import annotations

import os
import re
from typing import Iterable, Optional

from . import tree
from .notes import Note
from .rules.decimals import choose_units
from .source import Source
from .tree import Functor
from .words import free_name, is_legal, lower_first


class Porting:
    """What the sources of a project share. `folder` is that of the project, `turn` the milliseconds that a turn stands for."""

    def __init__(self, folder: str, turn: int):
        self.folder, self.turn = folder or ".", turn
        self.notes: list[Note] = []
        self.source_folders: list[str] = []
        self.open_files: list[str] = []
        self.agents: list[str] = []
        self.agent_names: dict[str, str] = {}
        self.actions: set[Functor] = set()
        self.asked: set[Functor] = set()
        self.drawn: dict = {}
        self.names: dict[str, str] = {}
        self.taken: set[str] = set()

    def find_beside(self, path: str, name: str) -> Optional[str]:
        """A file that a source names: beside it, or where the project has its sources."""
        places = [os.path.dirname(path), *self.source_folders]
        return next((it for it in (os.path.join(place, name) for place in places) if os.path.isfile(it)), None)

    def legal_name(self, name: str) -> str:
        """The name in place of one that jasonrun does not have: one for all sources."""
        if is_legal(name):
            return name
        if name not in self.names:
            flat = re.sub(r"[^A-Za-z0-9_]+", "_", name).strip("_") or "q"
            flat = lower_first(flat) if flat[0].isalpha() else "q_" + flat
            flat = flat if is_legal(flat) else flat + "_"
            self.names[name] = free_name(flat, self.taken)
            self.taken.add(self.names[name])
        return self.names[name]

    def port(self, sources: Iterable[Source]) -> None:
        """Looks at all sources, before each is written."""
        sources = list(sources)
        for source in sources:
            self.taken |= source.additions.taken
        self.drawn = choose_units(sources)
        for source in sources:
            self.asked.update(asked_of_others(source))
            tell_order(source)


def asked_of_others(source: Source) -> Iterable[Functor]:
    """What a source asks of other agents."""
    for node in source.of_kind(tree.Literal):
        if node.name == ".send" and len(node.arguments) > 2 and tree.is_literal(node.arguments[1], "askOne", "askAll"):
            asked = tree.bare(node.arguments[2])
            if isinstance(asked, tree.Literal):
                yield asked.functor


# ---- The order of beliefs


def tell_order(source: Source) -> None:
    """Tells of beliefs behind a rule for the same, and once of each belief that is added while running and asked for with a variable."""
    heads: set[Functor] = set()
    for clause in source.clauses:
        if isinstance(clause, tree.Rule):
            heads.add(clause.head.functor)
        elif type(clause) is tree.Belief and clause.literal.functor in heads:
            source.page.note(clause.start, "a belief behind a rule for it: Jason asks the rule first, here the belief", "mixed")
            heads.discard(clause.literal.functor)
    changes = [it for it in source.of_kind(tree.Item) if isinstance(it.subject, tree.Literal)]
    replaced = {it.subject.functor for it in changes if it.sign == "-+"}
    asked = {literal.functor for formula in formulas(source) for literal in tree.of_kind(formula, tree.Literal) if has_variable(literal)}
    added: dict[Functor, int] = {}
    for item in changes:
        if item.sign in ("+", "++") and any(not isinstance(it, tree.String) for it in item.subject.arguments):
            added.setdefault(item.subject.functor, item.start)
    for functor, place in added.items():
        if functor in asked - replaced:
            text = f"of several {functor} Jason finds the newest first, here the oldest comes first: ?, .findall, for, - and -+ go by it"
            source.page.note(place, text, "order")


def has_variable(literal: tree.Literal) -> bool:
    return any(isinstance(it, tree.Variable) and it.name != "_" for it in literal.arguments)


def formulas(source: Source) -> Iterable[tree.Node]:
    """What a source asks its beliefs."""
    for node in source.of_kind(tree.Rule, tree.Plan, tree.Item, tree.If, tree.Loop):
        if isinstance(node, tree.Rule):
            yield node.body
        elif isinstance(node, tree.Plan) and node.context:
            yield node.context
        elif isinstance(node, (tree.If, tree.Loop)):
            yield node.condition
        elif isinstance(node, tree.Item) and (node.sign == "?" or tree.is_literal(node.subject) and node.subject.name[0] == "."):
            yield node.subject
