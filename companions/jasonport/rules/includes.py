"""`{ include(..) }`: the file's text, ported, in its place."""
from __future__ import annotations

import os
from typing import TYPE_CHECKING

from .. import tree
from ..notes import Todo
from .table import directive, row

if TYPE_CHECKING:
    from ..clause import ClausePort


@directive("include")
@row(
    '`{ include("f") }`',
    "E",
    "the file's text, ported, in its place",
    "a file that is not there: X",
    tests="include include_todo",
)
def include(port: ClausePort, node: tree.Directive) -> str:
    from ..source import NotText, Source, relative_name

    arguments = node.literal.arguments
    if not arguments or not isinstance(arguments[0], tree.String):
        raise Todo("include", "an include without a file", node.literal)
    name = arguments[0].text[1:-1]
    path = port.porting.find_beside(port.source.path, name)
    if path is None:
        raise Todo("include", f"the file {name} is not there", node.literal)
    real = os.path.realpath(path)
    if real in port.porting.open_files:
        raise Todo("include", "the file includes itself", node.literal)
    namespace = namespace_of(port, node, name)
    port.porting.open_files.append(real)
    try:
        text = Source(port.porting, path, relative_name(port.porting, path), namespace, port.additions).ported()
    except (OSError, NotText) as error:
        raise Todo("include", f"the file {name} can't be read: {error}", node.literal) from error
    finally:
        port.porting.open_files.pop()
    port.note(node.literal, f"the file {name} stands here", "include")
    return f"// from {name}\n{text.rstrip()}\n// end of {name}"


@row(
    '`{ include("f", h) }`',
    "D",
    "`h__p` for the beliefs and goals of the file",
    "messages; a variable as namespace: X",
    tests="include_namespace",
)
def namespace_of(port: ClausePort, node: tree.Directive, name: str) -> str:
    """The namespace of the file: the second argument, else that of the file that includes it."""
    if len(node.literal.arguments) < 2:
        return port.source.namespace
    space = node.literal.arguments[1]
    if not isinstance(space, tree.Literal):
        raise Todo("ns", "a namespace that is no name", node.literal)
    port.note(
        node.literal,
        f"the beliefs and goals of {name} get the namespace before their names: {space.name}__NAME; messages from outside have to say so too",
        "ns",
    )
    return space.name
