"""The grammar of Jason 3: from a text to its clauses. No rule of the port stands here."""
from __future__ import annotations

import sys
from contextlib import contextmanager
from typing import Callable, Iterator, NoReturn, Optional, Union

from . import tree
from .lexer import Fault, Token, tokens
from .words import flat_name, free_name

LEVELS = 250  # jasonrun has as many levels in a clause
CHANGES = ("!", "!!", "?", "+", "-", "-+", "++", "--", "+<", "+>")
RELATIONS = ("<", "<=", ">", ">=", "==", "\\==", "=", "=..")
sys.setrecursionlimit(max(sys.getrecursionlimit(), 40 * LEVELS))  # a level takes a dozen calls


class Reader:
    """The tokens of a text, one after the other."""

    def __init__(self, source: str):
        self.source, self.tokens, self.next, self.level = source, tokens(source), 0, 0
        self.variables = {token.text: token.text for token in self.tokens if token.kind == "variable"}
        for name in [name for name in self.variables if not name.isascii()]:
            self.variables[name] = free_name(flat_name(name), self.variables.values())

    def ahead(self, count: int = 0) -> Token:
        return self.tokens[min(self.next + count, len(self.tokens) - 1)]

    @property
    def start(self) -> int:
        return self.ahead().start

    @property
    def last(self) -> int:
        """The end of the token that was taken last."""
        return self.tokens[self.next - 1].end

    @property
    def is_over(self) -> bool:
        return self.ahead().kind == "end"

    def is_sign(self, *signs: str, ahead: int = 0) -> bool:
        token = self.ahead(ahead)
        return token.kind == "sign" and token.text in signs

    def is_word(self, *words: str) -> bool:
        token = self.ahead()
        return token.kind == "atom" and token.text in words

    def take(self) -> Token:
        token = self.ahead()
        if token.kind != "end":
            self.next += 1
        return token

    def fail(self, text: str) -> NoReturn:
        raise Fault(self.start, text)

    def need(self, sign: str) -> Token:
        if not self.is_sign(sign):
            self.fail(f"'{sign}' is missing before '{self.ahead().text}'" if not self.is_over else f"'{sign}' is missing at the end of the file")
        return self.take()

    @contextmanager
    def deeper(self) -> Iterator[None]:
        """One level deeper, where there is one."""
        if self.level == LEVELS:
            self.fail(f"this is nested more than {LEVELS} levels deep")
        self.level += 1
        yield
        self.level -= 1

    def either(self, *readings: Callable[[], tree.Node]) -> tree.Node:
        """The first of these readings that there is; else the fault that comes last in the text."""
        place, level = self.next, self.level
        faults = []
        for reading in readings:
            try:
                return reading()
            except Fault as fault:
                self.next, self.level = place, level
                faults.append(fault)
        raise max(faults, key=lambda fault: fault.place)


class Terms(Reader):
    """Formulas and terms. They have one ladder, since Jason lets formulas be arguments."""

    def formula(self) -> tree.Node:
        return self.chain("|", lambda: self.chain("&", self.negation))

    def chain(self, sign: str, member: Callable[[], tree.Node]) -> tree.Node:
        start, members = self.start, [member()]
        while self.is_sign(sign):
            self.take()
            members.append(member())
        if len(members) > LEVELS:
            raise Fault(start, f"this has more than {LEVELS} parts")
        return members[0] if len(members) == 1 else tree.Chain(start, self.last, sign, members)

    def negation(self) -> tree.Node:
        if not self.is_word("not"):
            return self.relation()
        start = self.take().start
        with self.deeper():
            inside = self.negation()
        return tree.Not(start, self.last, inside)

    def relation(self) -> tree.Node:
        start, left = self.start, self.sum()
        if not self.is_sign(*RELATIONS):
            return left
        sign, right = self.take().text, self.sum()
        return tree.Relation(start, self.last, sign, left, right)

    def sum(self) -> tree.Node:
        return self.operations(self.product, lambda: self.is_sign("+", "-"))

    def product(self) -> tree.Node:
        return self.operations(self.power, lambda: self.is_sign("*", "/") or self.is_word("div", "mod"))

    def operations(self, side: Callable[[], tree.Node], goes_on: Callable[[], bool]) -> tree.Node:
        start, left = self.start, side()
        for _ in range(LEVELS):
            if not goes_on():
                return left
            sign, right = self.take().text, side()
            left = tree.Arithmetic(start, self.last, sign, left, right)
        raise Fault(start, f"this has more than {LEVELS} parts")

    def power(self) -> tree.Node:
        start, left = self.start, self.primary()
        if not self.is_sign("**"):
            return left
        self.take()
        with self.deeper():
            right = self.power()
        return tree.Arithmetic(start, self.last, "**", left, right)

    def primary(self) -> tree.Node:
        with self.deeper():
            start, token = self.start, self.ahead()
            if token.kind in ("number", "string"):
                self.take()
                return (tree.Number if token.kind == "number" else tree.String)(start, self.last, token.text)
            for sign, kind in (("-", tree.Negative), ("+", tree.Positive)):
                if self.is_sign(sign):
                    self.take()
                    inside = self.primary()
                    return kind(start, self.last, inside)
            if self.is_sign("("):
                self.take()
                inside = self.formula()
                self.need(")")
                return tree.Paren(start, self.last, inside)
            if self.is_sign("["):
                return self.list()
            return self.braces() if self.is_sign("{") else self.named()

    def list(self) -> tree.ListTerm:
        start, items, tail = self.need("[").start, [], None
        while not self.is_sign("]"):
            items.append(self.negation())
            if self.is_sign(","):
                self.take()
                continue
            if self.is_sign("|"):
                self.take()
                tail = self.primary()
            break
        self.need("]")
        return tree.ListTerm(start, self.last, items, tail)

    def arguments(self) -> list[tree.Node]:
        found = []
        self.need("(")
        while not self.is_sign(")"):
            found.append(self.formula())
            if not self.is_sign(","):
                break
            self.take()
        self.need(")")
        return found

    def named(self) -> tree.Named:
        """A variable or a literal."""
        start, namespace = self.start, None
        if self.is_sign("::"):
            self.take()
            namespace = ""
        negated = self.negated()
        token = self.name(start)
        if self.is_sign("::"):
            self.take()
            namespace, negated = token.text, self.negated() or negated
            token = self.name(start)
        given = self.arguments() if token.kind == "atom" and self.is_sign("(") else []
        behind_name = token.end if given else self.last
        annotations = self.list() if self.is_sign("[") else None
        kind = tree.Variable if token.kind == "variable" else tree.Literal
        name = self.variables.get(token.text, token.text)
        return kind(start, self.last, name, token.end, behind_name, negated, namespace, given, annotations)

    def negated(self) -> bool:
        if self.is_sign("~"):
            self.take()
            return True
        return False

    def name(self, start: int) -> Token:
        token = self.ahead()
        if token.kind not in ("atom", "variable"):
            raise Fault(start, f"'{token.text}' can't stand here" if token.kind != "end" else "the file ends too early")
        return self.take()

    def literal(self) -> tree.Literal:
        found = self.named()
        if not isinstance(found, tree.Literal):
            raise Fault(found.start, "a variable can't stand here")
        return found

    def braces(self) -> tree.Braces:
        raise NotImplementedError


class Bodies(Terms):
    """Bodies of plans, and what stands in braces."""

    def __init__(self, source: str):
        super().__init__(source)
        self.braced: dict[int, tuple[Union[tree.Braces, Fault], int]] = {}

    def body(self) -> tree.Body:
        start, items = self.start, []
        while not self.ends_body():
            items.append(self.statement())
            if self.is_sign(";"):
                separator = self.take()
                items[-1].separator = tree.Node(separator.start, separator.end)
            elif self.is_sign("{") and self.tokens[self.next - 1].text != "}":
                break
            elif not self.ends_body() and self.tokens[self.next - 1].text != "}":
                self.fail(f"';' is missing before '{self.ahead().text}'")
        return tree.Body(start, self.last if items else start, items)

    def ends_body(self) -> bool:
        return self.is_over or self.is_sign(".", "}", ")")

    def statement(self) -> tree.Statement:
        with self.deeper():
            start, branches, signs = self.start, [self.single()], []
            while self.is_sign("|&|", "|||"):
                signs.append(self.take().text)
                branches.append(self.single())
            return tree.Fork(start, self.last, signs, branches) if signs else branches[0]

    def block(self) -> tree.Body:
        open_end = self.need("{").end
        body = self.body()
        body.inside = (open_end, self.need("}").start)
        return body

    def single(self) -> tree.Statement:
        start = self.start
        if self.is_sign("{"):
            body = self.block()
            return tree.Block(start, self.last, body)
        if self.is_sign("(", ahead=1):
            if self.is_word("if", "elif"):
                return self.branches()
            if self.is_word("for", "while"):
                kind = tree.For if self.take().text == "for" else tree.While
                condition, body = self.condition(), self.block()
                return kind(start, self.last, condition, body)
        if not self.is_sign("("):
            return self.item()
        return self.either(self.group, self.item) if self.is_body_ahead() else self.either(self.item, self.group)

    def is_body_ahead(self) -> bool:
        """Whether behind this parenthesis stands what no term begins with."""
        return self.is_sign("!", "!!", "?", "+", "-+", "(", ahead=1) or (self.is_sign("-", ahead=1) and self.ahead(2).kind != "number")

    def group(self) -> tree.Statement:
        start = self.need("(").start
        body = self.body()
        self.need(")")
        if not self.is_sign("|&|", "|||", ";", ".", "}", ")"):
            self.fail("this is no body")
        return tree.Block(start, self.last, body)

    def condition(self) -> tree.Node:
        self.need("(")
        condition = self.formula()
        self.need(")")
        return condition

    def branches(self) -> tree.If:
        start = self.take().start
        condition, then, other = self.condition(), self.block(), None
        if self.is_word("elif") and self.is_sign("(", ahead=1):
            with self.deeper():
                other = self.branches()
        elif self.is_word("else"):
            self.take()
            other = self.block()
        return tree.If(start, self.last, condition, then, other)

    def item(self) -> tree.Item:
        start, sign = self.start, ""
        if self.is_sign(*CHANGES) and not (self.is_sign("-") and self.ahead(1).kind == "number"):
            sign = self.take().text
        subject = self.named() if sign not in ("", "?") and not self.is_sign("(") else self.formula()
        return tree.Item(start, self.last, sign, subject)

    def braces(self) -> tree.Braces:
        """What stands in braces. It is kept, since a reading that fails further on comes here again."""
        place = self.next
        if place not in self.braced:
            try:
                self.braced[place] = (self.braces_anew(), self.next)
            except Fault as fault:
                self.braced[place] = (fault, place)
        found, self.next = self.braced[place]
        if isinstance(found, Fault):
            raise found
        return found

    def braces_anew(self) -> tree.Braces:
        start = self.need("{").start
        readings = [lambda: self.in_braces(start, "rule", self.rule_parts), lambda: self.in_braces(start, "body", lambda: [self.body()])]
        if self.is_sign("@", "^", "+", "-"):
            readings.insert(0, lambda: self.in_braces(start, "plan", lambda: [self.plan(False)]))
        return self.either(*readings)

    def in_braces(self, start: int, kind: str, read: Callable[[], list]) -> tree.Braces:
        inside = read()
        if kind != "body" and self.is_sign("."):
            self.take()
        self.need("}")
        return tree.Braces(start, self.last, kind, inside)

    def rule_parts(self) -> list[tree.Node]:
        head = self.literal()
        self.need(":-")
        return [head, self.formula()]

    def plan(self, whole: bool) -> tree.Plan:
        raise NotImplementedError


class Parser(Bodies):
    """Clauses."""

    def agent(self, until: Optional[str] = None) -> list[tree.Clause]:
        """All clauses, or those before `{until}`."""
        found = []
        while not self.is_over and not (until and self.is_sign("{") and self.ahead(1).text == until):
            found.append(self.clause())
        return found

    def clause(self) -> tree.Clause:
        start = self.start
        if self.is_sign("{"):
            return self.directive()
        if self.is_sign("@", "+", "-", "^", "-+", "++", "--"):
            return self.plan(True)
        if self.is_sign("!"):
            self.take()
            literal = self.named()
            self.need(".")
            return tree.Goal(start, self.last, literal)
        literal = self.named()
        if self.is_sign(":-"):
            self.take()
            body = self.formula()
            self.need(".")
            return tree.Rule(start, self.last, literal, body)
        self.need(".")
        return tree.Belief(start, self.last, literal)

    def directive(self) -> tree.Clause:
        start = self.need("{").start
        begins = self.is_word("begin")
        if begins:
            self.take()
        literal = self.literal()
        self.need("}")
        if not begins:
            return tree.Directive(start, self.last, literal)
        with self.deeper():
            clauses = self.agent("end")
        self.need("{")
        self.take()
        self.need("}")
        return tree.Section(start, self.last, literal, clauses)

    def label(self) -> tree.Label:
        start = self.need("@").start
        if self.is_sign("["):
            annotations = self.list()
            return tree.Label(start, self.last, None, None, annotations)
        literal = self.named()
        return tree.Label(start, self.last, literal.name, literal, literal.annotations)

    def trigger(self) -> tree.Trigger:
        start = self.start
        if not self.is_sign("+", "-", "^"):
            self.fail("a trigger begins with + or -")
        sign = self.take().text
        kind = self.take().text if self.is_sign("!", "?") else ""
        named = self.named()
        return tree.Trigger(start, self.last, sign, kind, named)

    def plan(self, whole: bool) -> tree.Plan:
        """A plan: a whole clause with its dot, or one in braces."""
        start = self.start
        label = self.label() if self.is_sign("@") else None
        trigger = self.trigger()
        condition = self.formula_behind("<:")
        context = self.formula_behind(":")
        body = None
        if self.is_sign("<-"):
            self.take()
            body = self.body()
        inner = self.inner_plans() if whole and self.is_sign("{") else None
        if whole:
            self.need(".")
        return tree.Plan(start, self.last, label, trigger, condition, context, body, inner)

    def formula_behind(self, sign: str) -> Optional[tree.Node]:
        if not self.is_sign(sign):
            return None
        self.take()
        return self.formula()

    def inner_plans(self) -> tree.Braces:
        start, clauses = self.need("{").start, []
        with self.deeper():
            while not self.is_sign("}"):
                clauses.append(self.clause())
        self.need("}")
        return tree.Braces(start, self.last, "plans", clauses)


def read_clauses(source: str) -> tuple[list[tree.Clause], list[tuple[int, int, Fault]]]:
    """The clauses of a text, and what is none, up to the next dot, with its fault."""
    clauses, broken = [], []
    try:
        parser = Parser(source)
    except Fault as fault:
        return [], [(0, len(source), fault)]
    while not parser.is_over:
        start, place = parser.start, parser.next
        try:
            clauses.append(parser.clause())
        except Fault as fault:
            parser.level, parser.next = 0, max(parser.next, place)
            while not parser.is_over and not parser.is_sign("."):
                parser.take()
            parser.take()
            broken.append((start, parser.last, fault))
    return clauses, broken
