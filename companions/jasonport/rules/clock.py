"""`.date` and `.time`: a belief, and a clock that counts its questions."""
from __future__ import annotations

from typing import TYPE_CHECKING

from .. import tree
from ..words import call
from .table import Answer, action, row

if TYPE_CHECKING:
    from ..clause import ClausePort


@action("date", "time")
@row(
    "`.date`, `.time`",
    "D",
    "a belief; a clock that each question in a body moves by a second",
    "no time; with other arguments: X",
    tests="date_time",
)
def date_or_time(port: ClausePort, node: tree.Literal, in_context: bool) -> Answer:
    if len(node.arguments) != 3:
        return None
    for argument in node.arguments:
        port.term(argument)
    if node.name == ".date":
        sign, name = "?", port.library("today")
        port.note(node, f"there is no clock: the day is the belief {name}, and stands", "clock")
    else:
        sign, name = "!", port.library("now")
        port.note(node, "there is no clock: each time it is asked in a body it is a second later", "clock")
    return ("" if in_context else sign) + call(name, map(port.text, node.arguments))
