"""Names: quoted atoms, atoms with dots, namespaces."""
from __future__ import annotations

from typing import TYPE_CHECKING

from .. import tree
from ..notes import Todo
from ..words import is_legal
from .table import row

if TYPE_CHECKING:
    from ..clause import ClausePort
    from ..source import Source


def legal_name(source: Source, node: tree.Named) -> str:
    """The name of a literal, or the one in place of a name that jasonrun does not have."""
    return node.name if node.name[0] == "." else source.porting.legal_name(node.name.strip("'"))


def written_name(source: Source, node: tree.Named, in_namespace: bool) -> str:
    """What is written up to the end of the name of a literal. Beliefs and goals stand in the namespace of their file."""
    name = legal_name(source, node)
    if node.namespace is None:
        space = source.namespace if in_namespace else ""
    else:
        space = "" if node.namespace in ("", "default") else node.namespace.replace("this_ns", source.namespace)
    return ("~" if node.negated else "") + (f"{space}__{name}" if space else name)


@row(
    "quoted atoms, atoms with dots, with other letters than `a` to `z`",
    "D",
    "a legal name, one for all sources",
    "printed so",
    tests="atoms letters",
)
def tell_other_letters(port: ClausePort, node: tree.Named) -> None:
    """Tells of a name that jasonrun does not have."""
    if not is_legal(node.name) and node.name[0] != ".":
        port.note(node, f"the atom {node.name} is {legal_name(port.source, node)}, and so printed", "atom")


@row(
    "`h::p(X)`",
    "D",
    "`h__p(X)`",
    "messages from outside have to say so; a variable as a namespace: X",
    tests="ns namespace_todo",
)
def rename(port: ClausePort, node: tree.Named, in_namespace: bool) -> None:
    """Writes the name of a literal so that jasonrun has it."""
    space = node.namespace
    if space is not None and space[:1].isupper():
        raise Todo("ns", "a variable as a namespace", node)
    if space and not is_legal(space):
        raise Todo("ns", f"{space} is no namespace", node)
    tell_other_letters(port, node)
    new = written_name(port.source, node, in_namespace)
    if space is not None:
        port.note(node, f"the namespace {space} is part of the name: {new.removeprefix('~')}", "ns")
    if space is not None or new.removeprefix("~") != node.name:
        port.printer.rename(node, new)


def literal(port: ClausePort, node: tree.Node, in_head: bool = False, in_namespace: bool = True) -> None:
    """Ports the literal of a belief, goal, trigger or question."""
    if isinstance(node, tree.Variable):
        raise Todo("var", "a variable in place of a literal", node)
    if not isinstance(node, tree.Literal):
        raise Todo("syntax", "a literal is wanted", node)
    if node.name[0] == ".":
        raise Todo("syntax", "an internal action can't stand here", node)
    rename(port, node, in_namespace)
    for part in node.parts():
        port.term(part, in_head)
