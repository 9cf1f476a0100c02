"""Random bodies of `if`, `for`, `while`, `=`, prints and failure: an interpreter of Jason's rules for what is bound, and the port under jasonrun."""
from __future__ import annotations

import os
import random
import unittest
from concurrent.futures import ThreadPoolExecutor
from dataclasses import dataclass, field
from typing import Optional

from ..files import port_file, write_folder
from . import cases

COUNT = 50
DEPTH = 3
Value = Optional[int]
Bound = dict[str, int]


class Failed(Exception):
    """A step that fails."""


class TooLong(Exception):
    """A run that says too much."""


@dataclass
class Sum:
    """A number, or a variable and a number."""

    variable: Optional[str]
    number: int

    def __str__(self) -> str:
        if self.variable is None:
            return str(self.number)
        return f"{self.variable} + {self.number}" if self.number else self.variable

    def value(self, bound: Bound) -> int:
        return self.number if self.variable is None else bound[self.variable] + self.number


@dataclass
class Step:
    def run(self, bound: Bound, said: list[str]) -> None:
        raise NotImplementedError


@dataclass
class Steps:
    steps: list[Step] = field(default_factory=list)

    def __str__(self) -> str:
        return "; ".join(map(str, self.steps))

    def run(self, bound: Bound, said: list[str]) -> None:
        for step in self.steps:
            if len(said) > 200:
                raise TooLong
            step.run(bound, said)


@dataclass
class Made(Step):
    """`V = E`."""

    variable: str
    value: Sum

    def __str__(self) -> str:
        return f"{self.variable} = {self.value}"

    def run(self, bound: Bound, said: list[str]) -> None:
        if bound.setdefault(self.variable, self.value.value(bound)) != self.value.value(bound):
            raise Failed


@dataclass
class Print(Step):
    number: int
    variables: list[str]

    def __str__(self) -> str:
        return f'.print("p{self.number}"{"".join(f", {chr(34)} {chr(34)}, {it}" for it in self.variables)})'

    def run(self, bound: Bound, said: list[str]) -> None:
        said.append(" ".join([f"p{self.number}"] + [str(bound[it]) for it in self.variables]))


@dataclass
class Compared:
    left: Sum
    sign: str
    right: Sum

    def __str__(self) -> str:
        return f"{self.left} {self.sign} {self.right}"

    def holds(self, bound: Bound) -> bool:
        left, right = self.left.value(bound), self.right.value(bound)
        return {"<": left < right, ">": left > right, "==": left == right}[self.sign]


@dataclass
class Believed:
    """`p(Q) & Q > K`, where p(1) and p(2) are believed."""

    number: int

    def __str__(self) -> str:
        return f"p(Q) & Q > {self.number}"

    def holds(self, bound: Bound) -> bool:
        found = [it for it in ([bound["Q"]] if "Q" in bound else [1, 2]) if it in (1, 2) and it > self.number]
        if found:
            bound["Q"] = found[0]
        return bool(found)


@dataclass
class If(Step):
    condition: Compared | Believed
    then: Steps
    other: Steps

    def __str__(self) -> str:
        return f"if ({self.condition}) {{ {self.then} }}" + (f" else {{ {self.other} }}" if self.other.steps else "")

    def run(self, bound: Bound, said: list[str]) -> None:
        (self.then if self.condition.holds(bound) else self.other).run(bound, said)


FORMS = {"member": (".member({}, [1,3])", [1, 3]), "belief": ("p({})", [1, 2]), "range": (".range({}, 1, 2)", [1, 2])}


@dataclass
class For(Step):
    variable: str
    form: str
    body: Steps

    def __str__(self) -> str:
        return f"for ({FORMS[self.form][0].format(self.variable)}) {{ {self.body} }}"

    def run(self, bound: Bound, said: list[str]) -> None:
        for value in FORMS[self.form][1]:
            if bound.get(self.variable, value) == value:
                self.body.run({**bound, self.variable: value}, said)


@dataclass
class While(Step):
    """A loop with a count of its own among the beliefs."""

    number: int
    limit: int
    body: Steps

    def __str__(self) -> str:
        count, variable = f"c{self.number}", f"N{self.number}"
        return f"-+{count}(0); while ({count}({variable}) & {variable} < {self.limit}) {{ -+{count}({variable} + 1); {self.body} }}"

    def run(self, bound: Bound, said: list[str]) -> None:
        variable = f"N{self.number}"
        for count in range(self.limit):
            if bound.get(variable, count) != count:
                return
            self.body.run({**bound, variable: count}, said)


class Generator:
    """Bodies whose prints have variables that are bound there."""

    def __init__(self, seed: int):
        self.random, self.prints, self.loops = random.Random(seed), 0, 0

    def sum(self, sure: set[str]) -> Sum:
        variable = self.random.choice(sorted(sure)) if sure and self.random.random() < 0.5 else None
        return Sum(variable, self.random.randint(0, 3))

    def condition(self, sure: set[str]) -> Compared | Believed:
        if self.random.random() < 0.2:
            return Believed(self.random.randint(0, 2))
        return Compared(self.sum(sure), self.random.choice("< > ==".split()), self.sum(sure))

    def steps(self, sure: set[str], depth: int) -> tuple[Steps, set[str]]:
        """Steps, and the variables that are bound behind them."""
        found, sure = Steps(), set(sure)
        for _ in range(self.random.randint(1, 4)):
            chance = self.random.random() * (0.6 if depth == 0 else 1)
            if chance < 0.35:
                variable = self.random.choice("ABCDE")
                found.steps.append(Made(variable, self.sum(sure)))
                sure.add(variable)
            elif chance < 0.6:
                self.prints += 1
                found.steps.append(Print(self.prints, [self.random.choice(sorted(sure)) for _ in range(self.random.randint(1, 2))] if sure else []))
            elif chance < 0.78:
                step, behind = self.branches(sure, depth)
                found.steps.append(step)
                sure |= behind
            else:
                found.steps.append(self.loop(sure, depth))
        return found, sure

    def branches(self, sure: set[str], depth: int) -> tuple[If, set[str]]:
        condition = self.condition(sure)
        then, behind_then = self.steps(sure | ({"Q"} if isinstance(condition, Believed) else set()), depth - 1)
        other, behind_other = self.steps(sure, depth - 1) if self.random.random() < 0.6 else (Steps(), sure)
        return If(condition, then, other), behind_then & behind_other

    def loop(self, sure: set[str], depth: int) -> Step:
        if self.random.random() < 0.6:
            variable, form = self.random.choice("XYZ"), self.random.choice(sorted(FORMS))
            return For(variable, form, self.steps(sure | {variable}, depth - 1)[0])
        self.loops += 1
        number = self.loops
        return While(number, self.random.randint(1, 2), self.steps(sure | {f"N{number}"}, depth - 1)[0])


def difference(seed: int) -> str:
    """How the port of a random body and Jason's rules differ; empty where they do not."""
    body, _ = Generator(seed).steps({"K"}, DEPTH)
    wanted: list[str] = []
    try:
        body.run({"K": 2}, wanted)
        wanted.append("end")
    except Failed:
        wanted.append("failed")
    except TooLong:
        return ""
    source = f"p(1). p(2). !s(2).\n+!s(K) <- {body}; .print(end).\n-!s(_) <- .print(failed).\n"
    with cases.Folder() as folder:
        path, out = os.path.join(folder.path, "a.asl"), os.path.join(folder.path, "out")
        with open(path, "w", encoding="utf-8") as file:
            file.write(source)
        result = port_file(path, 100)
        write_folder(result.files, out, lambda _: True)
        report, fault = cases.run(os.path.join(out, "a.asl"), "--cycles", "4000")
    if fault or cases.said(report) != wanted:
        return f"{seed}: {fault}\n{source}\nwanted {wanted}\ngot {cases.said(report)}\n{result.files['a.asl']}"
    return ""


class Loops(unittest.TestCase):
    def test_random_bodies(self) -> None:
        count = int(os.environ.get("JASONPORT_LOOPS", COUNT))
        with ThreadPoolExecutor(os.cpu_count()) as pool:
            self.assertEqual([it for it in pool.map(difference, range(count)) if it], [])


if __name__ == "__main__":
    unittest.main()
