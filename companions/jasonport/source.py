"""An agent's source, and what is written in its place."""
from __future__ import annotations

import copy
import os
from typing import TYPE_CHECKING, Iterator, Optional

from . import tree
from .clause import port_clause
from .grammar import read_clauses
from .library import Additions
from .lexer import Fault
from .notes import Note, Page
from .pieces import Piece, Printer, faults_of_pieces
from .tree import Event, Functor
from .words import set_aside

if TYPE_CHECKING:
    from .porting import Porting

TITLE = "// added by jasonport\n"
MORE = "\n// from the options of the project\n"


class NotText(Exception):
    """A file that is no UTF-8, with the place where that shows."""


def read_text(path: str) -> str:
    """A file's text, line ends as they are, without a byte order mark."""
    with open(path, "rb") as file:
        data = file.read()
    try:
        return data.decode("utf-8-sig")
    except UnicodeDecodeError as error:
        before = data[: error.start]
        line, column = before.count(b"\n") + 1, error.start - before.rfind(b"\n")
        raise NotText(f"{path}:{line}:{column}: error: this is no UTF-8") from error


def with_more(text: str, more: str) -> str:
    """A source with the beliefs and goals that its project gives it."""
    if not more:
        return text
    return text + ("" if text.endswith("\n") or not text else "\n") + MORE + more


class Source:
    """A source: its clauses, what they name, and what is written in place of them."""

    def __init__(
        self, porting: Porting, path: str, name: str, namespace: str = "", additions: Optional[Additions] = None, more: str = ""
    ):
        """The source in a file; an included one shares the additions of the one that includes it. `more` are clauses from the project."""
        self.porting, self.path, self.namespace = porting, path, namespace
        self.page = Page(name, with_more(read_text(path), more), porting.notes)
        self.printer = Printer(self.page.text)
        self.clauses, self.broken = read_clauses(self.page.text)
        self.additions = additions or Additions()
        self.additions.taken.update(node.name for node in self.of_kind(tree.Literal))
        self.plans = [clause for clause in self.all_clauses() if isinstance(clause, tree.Plan)]
        self.goals = self.named_goals()
        self.by_event: dict[Event, list[tree.Plan]] = {}
        for plan in self.plans:
            self.by_event.setdefault(plan.trigger.event, []).append(plan)
        # what some rules keep: of which internal actions it was told that they pass goals by, the goals with drawn numbers, that for variables
        self.passed_by: set[str] = set()
        self.chances: dict[Event, str] = {}
        self.call_goal: Optional[str] = None

    # ---- What it names

    def all_clauses(self, among: Optional[list[tree.Clause]] = None) -> Iterator[tree.Clause]:
        """The clauses, also those between `{begin ..}` and `{end}`."""
        for clause in self.clauses if among is None else among:
            if isinstance(clause, tree.Section):
                yield from self.all_clauses(clause.clauses)
            else:
                yield clause

    def of_kind(self, *kinds: type) -> Iterator:
        return (node for clause in self.clauses for node in tree.of_kind(clause, *kinds))

    def named_goals(self) -> dict[Functor, tree.Literal]:
        """The goals that initial goals, steps and triggers name, as they are spelled, each with the literal that names it first; not the event
        that Jason makes of a message."""
        found: dict[Functor, tree.Literal] = {}
        for clause in self.all_clauses():
            for literal in map(goal_of, clause.walk()):
                if isinstance(literal, tree.Literal) and literal.name != "kqml_received":
                    spelled = self.page.text[literal.start : literal.name_end]
                    found.setdefault(Functor(spelled, len(literal.arguments)), literal)
        return found

    def plans_for(self, signs: str, kind: str, functor: Functor) -> list[tree.Plan]:
        return [plan for sign in signs for plan in self.by_event.get(Event(sign, kind, *functor), [])]

    # ---- Writing

    def with_text(self, text: str, notes: list[Note]) -> Source:
        """This source with another text, whose notes go elsewhere."""
        other = copy.copy(self)
        other.page = Page(self.page.name, text, notes)
        other.printer = Printer(text)
        return other

    def pieces(self) -> Iterator[Piece]:
        """What is written, piece for piece: clauses, and what stands between them."""
        text, place = self.page.text, 0
        read = [(clause.start, clause.end, clause) for clause in self.clauses]
        for start, end, what in sorted(read + self.broken, key=lambda it: it[0]):
            yield Piece(place, start, text[place:start])
            found = self.broken_text(start, end, what) if isinstance(what, Fault) else self.clause_text(what)
            if found.startswith("// todo ") and text[end:].split("\n", 1)[0].strip():
                found += "\n"
            yield Piece(start, end, found)
            place = end
        yield Piece(place, len(text), text[place:])

    def broken_text(self, start: int, end: int, fault: Fault) -> str:
        self.page.todo(fault.place, f"not read as Jason: {fault.text}", "syntax")
        self.page.noted.add(start)
        return set_aside(self.page.text[start:end])

    def clause_text(self, clause: tree.Clause) -> str:
        """What is written for a clause. Where it is another text and no rule says so, a note does."""
        said = len(self.page.notes)
        found = port_clause(self, clause)
        if found != self.printer.original(clause) and len(self.page.notes) == said:
            self.page.note(clause.start, "spelled anew", "spelling")
        return found

    def ported(self) -> str:
        """The text that is written, without what is added behind it; what no note names is kept in it."""
        pieces = list(self.pieces())
        faults = faults_of_pieces(self.page.text, pieces, self.page.noted)
        if faults:
            raise NotKept(self.page.name, *self.page.place(faults[0]))
        return "".join(piece.text for piece in pieces)

    def written(self) -> str:
        """The whole text that is written."""
        text, added = self.ported(), self.additions.text()
        if not added:
            return text
        return text + ("" if text.endswith("\n") else "\n") + "\n" + TITLE + added + "\n"


class NotKept(Exception):
    """A fault of jasonport: a clause would be written anew, and no note says so."""

    def __init__(self, name: str, line: int, column: int):
        super().__init__(f"{name}:{line}:{column}: a clause is not kept, and no note says so")


def goal_of(node: tree.Node) -> Optional[tree.Named]:
    """The goal that a node names, if any."""
    if isinstance(node, tree.Goal):
        return node.literal
    if isinstance(node, tree.Item) and node.sign in ("!", "!!"):
        return node.subject if isinstance(node.subject, tree.Named) else None
    if isinstance(node, tree.Trigger) and node.kind == "!":
        return node.literal
    return None


def relative_name(porting: Porting, path: str) -> str:
    """How a file is named in notes."""
    return os.path.relpath(path, porting.folder)
