"""What the usual lines of an environment in Java say of its facts and acts. It stands as comments in the world's file, for whoever writes that."""
from __future__ import annotations

import os
import re
from typing import Iterator, NamedTuple, Optional

FOLDERS = ("", "src", "src/env", "src/java", "src/main/java", "src/main/env")
CONSTANT = re.compile(r'\b(?:Literal|Structure|Term|String|LiteralImpl|Atom)\s+(\w+)\s*=\s*([^;]+);')
CHANGE = re.compile(r"\b(add|remove)Percept\s*\((.*)\)\s*;")
ACT = re.compile(r'(?:getFunctor\(\)\s*\.equals|\.equals(?:AsTerm)?|\bcase)\s*\(?\s*(?:"(\w+)"|(\w+))\s*[):]')
CALL = re.compile(r'^(?:new\s+)?(?:\w+\.)*\w+\s*\((.*)\)$', re.S)


class Said(NamedTuple):
    """What a line says: a fact at the start, an act, or a change in an act."""

    line: int
    text: str


def find_class(folder: str, name: str) -> Optional[str]:
    """The file of a class."""
    short, long = name.split(".")[-1], name.replace(".", "/")
    paths = (os.path.join(folder, place, f"{it}.java") for place in FOLDERS for it in (long, short))
    return next((path for path in paths if os.path.isfile(path)), None)


def literal_of(expression: str, constants: dict[str, str]) -> Optional[str]:
    """The literal that an expression makes: a constant, or one from texts, in which other values are variables."""
    expression = expression.strip()
    if expression in constants:
        return constants[expression]
    call = CALL.match(expression)
    inside = call.group(1) if call else expression
    if '"' not in inside:
        return None
    parts = re.findall(r'"((?:[^"\\]|\\.)*)"|([A-Za-z_][\w.()]*)', inside)
    text = "".join(text or variable(word) for text, word in parts)
    return text.rstrip(".") if text else None


def variable(word: str) -> str:
    """A variable for a value: an argument of the action as the acts here name it, the agent that does it, else by its name."""
    argument = re.search(r"getTerm\((\d+)\)", word)
    if argument:
        return f"X{int(argument.group(1)) + 1}"
    if word in ("ag", "agName"):
        return "A"
    name = re.sub(r"\W+", "_", word).strip("_")
    return name[:1].upper() + name[1:]


def arguments(text: str) -> list[str]:
    """The arguments of a call: what stands between commas that are in no brackets and no text."""
    parts, depth, in_text = [""], 0, False
    for sign in text:
        in_text ^= sign == '"'
        depth += 0 if in_text else (sign == "(") - (sign == ")")
        if sign == "," and depth == 0 and not in_text:
            parts.append("")
        else:
            parts[-1] += sign
    return [part.strip() for part in parts]


def read_java(text: str) -> Iterator[Said]:
    """What each line says, from above."""
    constants = {name: found for name, value in CONSTANT.findall(text) if (found := literal_of(value, {}))}
    in_act = False
    for number, line in enumerate(text.split("\n"), 1):
        line = line.split("//")[0] if '"' not in line else line
        if "executeAction" in line:
            in_act = True
        act = ACT.search(line) if in_act else None
        name = act and (act.group(1) or constants.get(act.group(2)))
        if name:
            yield Said(number, f"act {name}")
        for sign, inside in CHANGE.findall(line):
            fact = percept(arguments(inside), constants)
            if fact:
                yield Said(number, f"    {'+' if sign == 'add' else '-'}{fact}" if in_act else f"{fact}." if sign == "add" else f"no {fact} any more")


def percept(values: list[str], constants: dict[str, str]) -> Optional[str]:
    """The fact of a percept, for all or for one agent."""
    fact = literal_of(values[-1], constants)
    if fact is None or len(values) > 2:
        return None
    if len(values) == 1:
        return fact
    agent = values[0].strip('"') if values[0].startswith('"') else constants.get(values[0], variable(values[0]))
    return f"for({agent}, {fact})"


def comments(folder: str, name: str) -> list[str]:
    """The comments for the world's file; none where the class is not found."""
    path = find_class(folder, name)
    if path is None:
        return []
    with open(path, encoding="utf-8", errors="replace") as file:
        return [f"// {os.path.basename(path)}:{said.line}: {said.text}" for said in read_java(file.read())]
