"""The program: its words and statuses, and what it leaves behind."""
from __future__ import annotations

import os
import pathlib
import subprocess
import sys
import unittest
from typing import Optional

from . import cases

STARTER = cases.TOP / "jasonport"
SOURCE = "!g.\n+!g <- if (true) { .print(a) }.\n"


class Command(unittest.TestCase):
    def setUp(self) -> None:
        folder = cases.Folder()
        self.addCleanup(folder.__exit__)
        self.folder = pathlib.Path(folder.path)
        (self.folder / "a.asl").write_text(SOURCE)

    def call(self, *words: str, look: Optional[str] = None) -> tuple[int, str, str]:
        environment = dict(os.environ)
        if look is not None:
            environment["JASONLOOK"] = look
        done = subprocess.run([str(STARTER), *words], cwd=self.folder, env=environment, capture_output=True, encoding="utf-8")
        self.assertNotIn("Traceback", done.stderr)
        return done.returncode, done.stdout, done.stderr

    def program(self, text: str) -> str:
        """A program in place of jasonlook."""
        path = self.folder / "look"
        path.write_text(f"#!/bin/sh\n{text}\n")
        path.chmod(0o755)
        return str(path)

    def names(self) -> list[str]:
        return sorted(it.name for it in self.folder.iterdir())

    def test_port(self) -> None:
        status, told, fault = self.call("a.asl", "-o", "x/y")
        self.assertEqual((status, told, fault), (0, "a.asl:2:8: note: if is the goal g_if [if]\n", ""))
        self.assertEqual(os.listdir(self.folder / "x/y"), ["a.asl"])
        self.assertEqual(self.names(), ["a.asl", "x"])

    def test_todo(self) -> None:
        (self.folder / "a.asl").write_text("é(1). +!g <- .suspend(h).")
        status, told, _ = self.call("a.asl", "-o", "x")
        self.assertEqual(status, 1)
        self.assertIn("a.asl:1:15: todo: no intention can be suspended: .suspend/1 [suspend]\n", told)

    def test_list(self) -> None:
        self.assertEqual(self.call("--list", "a.asl"), (0, "a.asl:2:8: note: if is the goal g_if [if]\n", ""))
        self.assertEqual(self.names(), ["a.asl"])

    def test_turn(self) -> None:
        (self.folder / "a.asl").write_text("+!g <- .wait(1000).")
        for words in (("--turn", "250"), ("--turn=250",)):
            _, told, _ = self.call("--list", *words, "a.asl")
            self.assertIn("4 turns of this intention (--turn 250)", told)

    def test_help(self) -> None:
        status, told, _ = self.call("--help")
        self.assertEqual((status, told.split("\n")[0][:38]), (0, "usage: jasonport PROJECT -o FOLDER [--"))
        self.assertRegex(self.call("--version")[1], r"^jasonport \d+\.\d+\.\d+\n$")

    def test_faulty_words(self) -> None:
        for words in (
            "",
            "a.asl",
            "-o x",
            "a.asl b.asl -o x",
            "a.txt -o x",
            "a.asl -o x -o y",
            "a.asl -o",
            "a.asl --list -o x",
            "a.asl -o x --turn 0",
            "a.asl -o x --turn 1000001",
            "a.asl -o x --turn ten",
            "a.asl -o x --turn",
            "a.asl -o x --quick",
        ):
            with self.subTest(words):
                status, told, fault = self.call(*words.split())
                self.assertEqual((status, told), (2, ""))
                self.assertIn("usage: jasonport", fault)
                self.assertEqual(self.names(), ["a.asl"])

    def test_folders(self) -> None:
        (self.folder / "full").mkdir()
        (self.folder / "full/b").write_text("")
        (self.folder / "empty").mkdir()
        for folder in ("full", "a.asl", "a.asl/x", "."):
            with self.subTest(folder):
                status, told, fault = self.call("a.asl", "-o", folder)
                self.assertEqual((status, told), (3, ""))
                self.assertRegex(fault, r"^jasonport: .+\n$")
        self.assertEqual(self.names(), ["a.asl", "empty", "full"])
        self.assertEqual(self.call("a.asl", "-o", "empty/")[0], 0)
        self.assertEqual(os.listdir(self.folder / "empty"), ["a.asl"])

    def test_project_with_a_fault(self) -> None:
        (self.folder / "p.mas2j").write_text("MAS p {\n  agents: a\n}")
        status, told, fault = self.call("p.mas2j", "-o", "x")
        self.assertEqual((status, told, fault), (3, "", "p.mas2j:3:1: error: ';' is missing behind the agent a\n"))
        self.assertEqual(self.names(), ["a.asl", "p.mas2j"])

    def test_missing(self) -> None:
        status, told, fault = self.call("none.mas2j", "-o", "x")
        self.assertEqual((status, told), (3, ""))
        self.assertIn("none.mas2j", fault)
        self.assertEqual(self.names(), ["a.asl"])

    def test_refused(self) -> None:
        """Where jasonlook tells anything nothing is left, neither the folder nor those above it."""
        status, told, fault = self.call("a.asl", "-o", "x/y", look=self.program("echo ./a.asl:1:1: error: no; exit 1"))
        self.assertEqual(status, 4)
        self.assertIn("./a.asl:1:1: error: no\n", fault)
        self.assertEqual(self.names(), ["a.asl", "look"])
        self.assertIn("[if]", told)

    def test_no_jasonlook(self) -> None:
        for look in (str(self.folder / "none"), self.program("echo nothing could be built >&2; exit 125")):
            with self.subTest(look):
                folder = "x" + str(len(self.names()))
                status, told, fault = self.call("a.asl", "-o", folder, look=look)
                self.assertEqual(status, 5)
                self.assertIn("written, and not checked", fault)
                self.assertIn("[if]", told)
                self.assertEqual(os.listdir(self.folder / folder), ["a.asl"])

    def test_closed_output(self) -> None:
        """Where what is told goes nowhere nothing is left."""
        words = f"{sys.executable} {cases.HERE.parent} a.asl -o x >/dev/full"
        done = subprocess.run(words, shell=True, cwd=self.folder, capture_output=True, encoding="utf-8")
        self.assertEqual(done.returncode, 3)
        self.assertNotIn("Traceback", done.stderr)
        self.assertEqual(self.names(), ["a.asl"])


if __name__ == "__main__":
    unittest.main()
