"""The port of one clause. The rules, in rules/, are called from here by the tables in which they stand."""
from __future__ import annotations

from contextlib import contextmanager
from typing import TYPE_CHECKING, Iterator, NamedTuple, Optional, Union

from . import tree
from .notes import Todo
from .rules import table
from .scope import Scope
from .tree import Node
from .words import flat_name, one_line, quoted, set_aside

if TYPE_CHECKING:
    from .source import Source


class Question(NamedTuple):
    """What has to be asked before: as a formula, and as a step of a body."""

    formula: str
    step: str


class ClausePort:
    """A clause under port: rules write in place of its nodes, and leave here what stands before and behind it."""

    def __init__(self, source: Source, clause: tree.Clause):
        self.source, self.clause = source, clause
        self.porting, self.printer, self.additions = source.porting, source.printer, source.additions
        self.scope = Scope(clause)
        self.helpers: list[str] = []  # clauses that stand behind it
        self.front = ""  # what stands before it
        self.questions: list[Question] = []  # what is asked before the formula or step under port
        self.extra_context = ""  # what its context asks as well
        self.drawn = ""  # the variable with a random number, in a body
        self.is_positive, self.is_whole = True, False

    def of(self, source: Source, clause: tree.Clause) -> ClausePort:
        """The port of another clause."""
        return type(self)(source, clause)

    def whole_text(self) -> str:
        """Ports the clause: what is written for it, with what stands before and behind it."""
        text = table.CLAUSES[type(self.clause)](self, self.clause)
        return self.front + text + "".join("\n" + helper for helper in self.helpers)

    # ---- Writing and telling

    def text(self, node: Optional[Node]) -> str:
        return self.printer.text(node)

    def write(self, node: Node, text: str) -> None:
        self.printer.write(node, text)

    def original(self, node: Node) -> str:
        return self.printer.original(node)

    def note(self, at: Union[Node, int], text: str, code: str) -> None:
        self.source.page.note(at if isinstance(at, int) else at.start, text, code)

    def todo(self, at: Union[Node, int], text: str, code: str) -> None:
        self.source.page.todo(at if isinstance(at, int) else at.start, text, code)

    def left(self, todo: Todo, node: Node) -> str:
        """Tells a todo; the string that stands in place of the node, in a goal or a belief `todo` that is not there."""
        self.todo(todo.node or node, todo.text, todo.code)
        line, column = self.source.page.place(node.start)
        return quoted(f"{self.source.page.name}:{line}:{column}: {one_line(self.original(node))}")

    # ---- New names

    def library(self, entry: str) -> str:
        """The name of an entry of the library, which is added to the source."""
        return self.additions.use(entry)

    def fresh(self, end: str) -> str:
        """A new name that begins with that of the plan's trigger."""
        name = self.clause.trigger.literal.name.lower() if isinstance(self.clause, tree.Plan) else "g"
        return self.additions.fresh(flat_name(name if name[:1].isalpha() and name.isascii() else "g") + end)

    def variable(self, start: str = "V") -> str:
        return self.scope.numbered(start)

    def ask_before(self, formula: str, step: Optional[str] = None) -> None:
        """What has to be asked before the formula or step under port; the step is the formula, if left out."""
        self.questions.append(Question(formula, formula if step is None else step))

    @contextmanager
    def asked_apart(self) -> Iterator[list[Question]]:
        """Collects what has to be asked in here, apart from what has to be outside."""
        outside, self.questions = self.questions, []
        try:
            yield self.questions
        finally:
            self.questions = outside

    # ---- The rules, by kinds of nodes

    def term(self, node: Node, in_head: bool = False) -> None:
        """Ports a term. In heads of clauses there is no arithmetic."""
        if self.printer.is_anew(node):
            return
        rule = table.TERMS.get(type(node))
        if rule is None:
            raise Todo("syntax", "a formula as a term", node)
        rule(self, node, in_head)

    def formula(self, node: Node) -> None:
        """Ports a formula, part by part. A part without a port becomes one that never holds."""
        if type(node) in (tree.Chain, tree.Paren, tree.Not):
            self.is_positive ^= isinstance(node, tree.Not)
            for part in node.parts():
                self.formula(part)
            self.is_positive ^= isinstance(node, tree.Not)
            return
        try:
            with self.asked_apart() as questions:
                rule = table.FORMULAS.get(type(node))
                if rule is None:
                    raise Todo("syntax", "no formula", node)
                rule(self, node)
                if questions:
                    self.write(node, f"({' & '.join([it.formula for it in questions] + [self.text(node)])})")
        except Todo as todo:
            if self.is_whole:
                raise
            self.write(node, f"{'' if self.is_positive else 'not '}todo({self.left(todo, node)})")

    def whole_formula(self, node: Node) -> None:
        """Ports a formula of which no part may be left out: where one has no port, what stands around the formula has none."""
        before = self.is_positive, self.is_whole
        self.is_positive, self.is_whole = True, True
        try:
            self.formula(node)
        finally:
            self.is_positive, self.is_whole = before

    def statement(self, node: tree.Statement) -> None:
        """Ports a step, with what has to be asked before it. One without a port becomes a goal for which no plan is."""
        helpers = len(self.helpers)
        try:
            with self.asked_apart() as questions:
                answer = table.STATEMENTS[type(node)](self, node)
                if answer is not None:
                    self.write(node, answer)
                if questions:
                    steps = [it.step for it in questions] + [self.text(node)]
                    self.write(node, "; ".join(step for step in steps if step))
        except Todo as todo:
            del self.helpers[helpers:]
            self.write(node, f"!todo({self.left(todo, node)})")
        if self.text(node) == "":
            self.write(node, "true")

    def body(self, body: tree.Body) -> None:
        """Ports the steps of a body; a `;` stands between them and nowhere else, and there is one step at least."""
        if not body.items:
            self.write(body, "true")
        for item in body.items:
            self.statement(item)
            is_last = item is body.items[-1]
            if item.separator is None and not is_last:
                self.write(item, self.text(item) + ";")
            if item.separator is not None and is_last:
                self.write(item.separator, "")

    def body_text(self, body: tree.Body) -> str:
        """The text of a body that stood in braces, with the comments at its edges."""
        self.body(body)
        text = self.text(body).strip() or "true"
        if body.inside is None:
            return text
        source, (first, last) = self.source.page.text, body.inside
        before, behind = source[first : body.start].strip(), source[body.end : last].strip()
        if "//" in before or "/*" in before:
            text = f"{before}\n      {text}"
        if "//" in behind or "/*" in behind:
            text = f"{text} {behind}\n"
        return text


def port_clause(source: Source, clause: tree.Clause) -> str:
    """What is written for a clause. One without a port is set aside."""
    try:
        return ClausePort(source, clause).whole_text()
    except Todo as todo:
        source.page.todo((todo.node or clause).start, todo.text, todo.code)
        return set_aside(source.printer.original(clause))
