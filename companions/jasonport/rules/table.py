"""The table of rules: which function writes what anew, and the rows of docs/PORT.md. A rule is one function in one of the modules beside this one."""
from __future__ import annotations

from typing import TYPE_CHECKING, Callable, NamedTuple, Optional

from .. import tree

if TYPE_CHECKING:
    from ..clause import ClausePort

# What a rule answers: the text in place of its node; none where the node stays, with what was written in place of its parts.
Answer = Optional[str]
TermRule = Callable[["ClausePort", tree.Node, bool], None]
FormulaRule = Callable[["ClausePort", tree.Node], None]
StatementRule = Callable[["ClausePort", tree.Statement], Answer]
ActionRule = Callable[["ClausePort", tree.Literal, bool], Answer]
FunctionRule = Callable[["ClausePort", tree.Literal], None]
ClauseRule = Callable[["ClausePort", tree.Clause], str]

TERMS: dict[type, TermRule] = {}
FORMULAS: dict[type, FormulaRule] = {}
STATEMENTS: dict[type, StatementRule] = {}
ACTIONS: dict[str, ActionRule] = {}
FUNCTIONS: dict[tree.Functor, FunctionRule] = {}
CLAUSES: dict[type, ClauseRule] = {}
SECTIONS: dict[str, ClauseRule] = {}
DIRECTIVES: dict[str, ClauseRule] = {}


class Row(NamedTuple):
    """A row of docs/PORT.md. `how` is S (the same), E (written anew, and means the same), D (with this difference), X (left to do)."""

    construct: str
    how: str
    becomes: str
    difference: str
    tests: tuple[str, ...]
    module: str

    def __str__(self) -> str:
        cells = [self.construct, self.how, self.becomes, self.difference, ", ".join(self.tests)]
        return "| " + " | ".join(cell.replace("|", "\\|") for cell in cells) + " |"


ROWS: list[Row] = []


def row(construct: str, how: str, becomes: str, difference: str = "", *, tests: str) -> Callable:
    """Puts a row of docs/PORT.md above the function that carries it. `tests` are names of cases, with blanks between them."""

    def mark(function: Callable) -> Callable:
        ROWS.append(Row(construct, how, becomes, difference, tuple(tests.split()), function.__module__))
        return function

    return mark


def put(table: dict, *keys: object) -> Callable:
    """Puts a function into a table."""

    def mark(function: Callable) -> Callable:
        for key in keys:
            assert key not in table, key
            table[key] = function
        return function

    return mark


def action(*names: str) -> Callable:
    """The rule of internal actions of these names, without their dots. Where it answers nothing the internal action stays, if jasonrun has it."""
    return put(ACTIONS, *names)


def function(*functors: str) -> Callable:
    """The rule of functions in arithmetic, as `math.abs/1`."""
    return put(FUNCTIONS, *(tree.Functor(name, int(count)) for name, count in (it.rsplit("/", 1) for it in functors)))


def statement(*kinds: type) -> Callable:
    """The rule of a kind of step in a body."""
    return put(STATEMENTS, *kinds)


def section(*names: str) -> Callable:
    """The rule of `{begin NAME(..)}` .. `{end}`."""
    return put(SECTIONS, *names)


def directive(*names: str) -> Callable:
    """The rule of `{ NAME(..) }`."""
    return put(DIRECTIVES, *names)
