"""What jasonrun reads already comes back byte for byte, but for forms that mean something else in Jason; and the pairs of docs/FROM_JASON.md."""
from __future__ import annotations

import os
import unittest
from typing import Iterator

from ..command import Gate
from ..files import Ported, port_file, write_folder
from . import cases

# What a source of jasonrun may be written anew for, or left to do.
MEANINGS = {
    "arith": "`.findall(X*2, ..)` calculates in Jason",
    "ask": "plans answer questions there",
    "errmsg": "a failure has more annotations there",
    "message": "verbs and receivers that are neither in Jason nor here: the item fails",
    "spelling": '`"a" + "b"` joins texts there, and `.send("bob", ..)` has a receiver',
}


def sources_of_cases() -> Iterator[tuple[str, str]]:
    """The sources of jasonrun's cases which are read, and the names of the cases."""
    for path in sorted((cases.TOP / "crates/cases/data").glob("*.cases")):
        name, text, is_read, sources = "", None, False, []
        for line in path.read_text(encoding="utf-8").split("\n") + ["case"]:
            key, _, rest = line.partition(" ")
            if key == "case":
                yield from ((f"{path.stem}: {name}", source) for source in sources if is_read)
                name, is_read, sources, text = rest, False, [], None
            elif key in ("|", "+") and text is not None:
                sources[-1] += rest + ("\n" if key == "|" else "")
            elif key in ("!", "*"):
                sources = [it for it in sources if it is not sources[-1]]
                text = None
            elif key in ("source", "file"):
                file, _, begin = rest.partition(" ") if key == "file" else (".asl", "", rest)
                text = begin if file.endswith(".asl") else None
                sources += [] if text is None else [text]
            elif key:
                text, is_read = None, is_read or key in ("trace", "turns")


class Kept(unittest.TestCase):
    def setUp(self) -> None:
        self.folder = cases.Folder()
        self.addCleanup(self.folder.__exit__)

    def port(self, text: str) -> tuple[Ported, str]:
        path = os.path.join(self.folder.path, "a.asl")
        with open(path, "w", encoding="utf-8", newline="") as file:
            file.write(text)
        result = port_file(path, 100)
        return result, result.files["a.asl"]

    def test_examples(self) -> None:
        paths = sorted((cases.TOP / "examples").glob("**/*.asl"))
        self.assertGreater(len(paths), 60)
        for path in paths:
            with self.subTest(path), open(path, encoding="utf-8", newline="") as file:
                text = file.read()
                result, found = self.port(text)
                self.assertEqual(found, text)
                self.assertFalse(result.has_todos)

    def test_projects_of_examples(self) -> None:
        """But those of the course, whose sources are the students'."""
        paths = sorted(set((cases.TOP / "examples").glob("**/*.mas2j")) - set((cases.TOP / "examples/course").glob("**/*.mas2j")))
        self.assertGreater(len(paths), 10)
        for path in paths:
            with self.subTest(path):
                result = port_file(str(path), 100)
                self.assertFalse(result.has_todos)
                for name, text in result.files.items():
                    self.assertEqual(text, (path.parent / name).read_text(encoding="utf-8"))

    def test_cases_of_jasonrun(self) -> None:
        count = 0
        for name, text in sources_of_cases():
            count += 1
            result, found = self.port(text)
            if found != text or result.has_todos:
                with self.subTest(name):
                    self.assertLessEqual({note.code for note in result.notes if note.kind == "todo"} | {result.notes[0].code}, set(MEANINGS))
        self.assertGreater(count, 500)


# ---- docs/FROM_JASON.md


def jason_blocks() -> list[str]:
    """Jason's texts of the page, in its order."""
    parts = (cases.TOP / "docs/FROM_JASON.md").read_text(encoding="utf-8").split("```")
    return [part.removeprefix("jason\n") for part in parts[1::2] if part.startswith("jason\n")]


def pattern(name: str) -> str:
    return (cases.TOP / "examples/patterns" / name).read_text(encoding="utf-8")


class FromJason(unittest.TestCase):
    def ported(self, text: str, others: dict[str, str]) -> tuple[Ported, list[str]]:
        """The port of a text that jasonrun reads, beside other files, and what is said in a run."""
        with cases.Folder() as folder:
            for name, content in {"a.asl": text, **others}.items():
                with open(os.path.join(folder.path, name), "w", encoding="utf-8") as file:
                    file.write(content)
            result = port_file(os.path.join(folder.path, "p.mas2j" if others else "a.asl"), 100)
            gate, out = Gate(), os.path.join(folder.path, "out")
            self.assertTrue(write_folder(result.files, out, lambda path: gate.accepts(path, result.main)))
            self.assertEqual(gate.unasked, "")
            return result, cases.said(cases.run(os.path.join(out, result.main))[0])

    def test_all_are_read(self) -> None:
        todos = []
        for text in jason_blocks():
            result, _ = self.ported(text, {})
            todos += cases.codes(result.notes, "todo")
        self.assertEqual(todos, ["error", "atomic"])

    def test_branches(self) -> None:
        text = next(it for it in jason_blocks() if "while" in it)
        own = pattern("branches.asl").split("// if ")[0]
        _, said = self.ported(text + own, {})
        self.assertEqual(said, cases.said(cases.run(str(cases.TOP / "examples/patterns/branches.asl"))[0]))

    def test_chance(self) -> None:
        text = next(it for it in jason_blocks() if ".random" in it)
        _, said = self.ported(text + "!throw(6). +!throw(0).", {})
        self.assertEqual(said, cases.said(cases.run(str(cases.TOP / "examples/patterns/chance.asl"))[0]))

    def test_waiting(self) -> None:
        text = next(it for it in jason_blocks() if ".wait(500)" in it)
        project = "MAS p { infrastructure: Centralised agents: a; worker; }"
        _, said = self.ported(text + "!event. !turns. !look.", {"p.mas2j": project, "worker.asl": pattern("worker.asl")})
        own = cases.said(cases.run(str(cases.TOP / "examples/patterns/waiting.mas2j"))[0])
        self.assertEqual(sorted(line.split(": ")[1] for line in said), sorted(line.split(": ")[1] for line in own))


if __name__ == "__main__":
    unittest.main()
