"""Words as jasonrun takes them: names, texts between quotes, comments."""
from __future__ import annotations

import re
from typing import Collection, Iterable

RESERVED = ("not", "div", "mod", "true", "false")


def is_legal(name: str) -> bool:
    """Whether a name is an atom."""
    return re.fullmatch(r"[a-z][A-Za-z0-9_]*", name) is not None and name not in RESERVED


def flat_name(name: str) -> str:
    """A name with `_` for each sign that names do not have."""
    return re.sub(r"[^A-Za-z0-9_]", "_", name)


def lower_first(name: str) -> str:
    return name[:1].lower() + name[1:]


def free_name(name: str, taken: Collection[str]) -> str:
    """The name, with the first number behind it from 2 that makes it a new one, where it is taken."""
    found, number = name, 1
    while found in taken:
        number += 1
        found = f"{name}{number}"
    return found


def quoted(text: str) -> str:
    """A string of this text."""
    return '"' + text.replace("\\", "\\\\").replace('"', '\\"').replace("\n", "\\n").replace("\t", "\\t") + '"'


def call(name: str, values: Iterable[str]) -> str:
    """A literal of a name and arguments."""
    inside = ", ".join(values)
    return f"{name}({inside})" if inside else name


def blank_call(name: str, count: int) -> str:
    """A literal of a name and so many `_`."""
    return call(name, ["_"] * count)


def set_aside(text: str) -> str:
    """A text as comments, which are to be done by hand."""
    return "\n".join("// todo " + line for line in text.split("\n"))


def one_line(text: str) -> str:
    return " ".join(text.split())
