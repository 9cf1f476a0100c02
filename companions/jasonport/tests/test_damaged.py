"""Damaged input: a message with a place, never a traceback, nothing half written."""
from __future__ import annotations

import contextlib
import io
import os
import random
import re
import unittest

from .. import command
from . import cases

COUNT = 500
WORDS = ["/*", "//", "<-", ":-", "|&|", "if (", "for (", "{begin ", "{end}", "::", '"""', "\u00e9", "\u2028", "X", "a", "9.5", "MAS", "#"]
PIECES = list("()[]{}\"'.;:!?+-*/&|@~<>=_#\\ \n\t\r") + WORDS
LINE = re.compile(r".+:\d+:\d+: (error|note|todo): .+")


def changed(text: str, chance: random.Random) -> str:
    """The text with one to three changes: something cut out, put in, or doubled."""
    for _ in range(chance.randint(1, 3)):
        start = chance.randint(0, len(text))
        end = min(len(text), start + chance.choice([0, 0, 1, 1, 2, 10, 100]))
        new = chance.choice([*PIECES, "", "", text[start:end] * 2])
        text = text[:start] + new + text[end:]
    return text


def inputs() -> list[tuple[str, str]]:
    """Names and texts to damage: the cases of the port, and projects."""
    found = [(name, text) for case in cases.all_cases() for name, text in case.files.items() if name.endswith((".asl", ".mas2j", ".jcm"))]
    return found + [(path.name, path.read_text(encoding="utf-8")) for path in sorted((cases.HERE / "given").glob("*/*.asl"))]


class Damaged(unittest.TestCase):
    def call(self, *words: str) -> tuple[int, str, str]:
        out, fault = io.StringIO(), io.StringIO()
        with contextlib.redirect_stdout(out), contextlib.redirect_stderr(fault):
            status = command.main(list(words))
        return status, out.getvalue(), fault.getvalue()

    def look(self, name: str, text: str, unread: list[str]) -> None:
        """A damaged text either has a port, or there is a message with a place, and nothing is written."""
        with cases.Folder() as folder:
            path, out = os.path.join(folder.path, "in_" + os.path.basename(name)), os.path.join(folder.path, "out")
            with open(path, "w", encoding="utf-8", newline="") as file:
                file.write(text)
            status, told, fault = self.call(path, "-o", out)
            self.assertIn(status, (0, 1, 3, 4), text)
            self.assertEqual(os.path.isdir(out), status < 2, text)
            self.assertEqual(len(os.listdir(folder.path)), 1 + (status < 2), text)
            for line in told.splitlines() if "\u2028" not in text else []:
                self.assertRegex(line, LINE)
            if status >= 2:
                self.assertRegex(fault.split("\n")[0], LINE, text)
            if status == 4:
                unread.append(text)

    def test_damaged(self) -> None:
        chance, texts, unread = random.Random(79), inputs(), []
        for _ in range(int(os.environ.get("JASONPORT_DAMAGED", COUNT))):
            name, text = chance.choice(texts)
            self.look(name, changed(text, chance), unread)
        self.assertEqual(unread, [], "these came out as what jasonrun does not read")

    def test_bytes(self) -> None:
        """Bytes that are no text, and files that are none."""
        with cases.Folder() as folder:
            path, out = os.path.join(folder.path, "a.asl"), os.path.join(folder.path, "out")
            with open(path, "wb") as file:
                file.write(b"p(\"\xff\").")
            for word in (path, os.path.join(folder.path, "none.asl"), os.path.join(folder.path, "none", "a.mas2j")):
                status, told, fault = self.call(word, "-o", out)
                self.assertEqual((status, told), (3, ""))
                self.assertRegex(fault, r"^(jasonport: .+|.+/a\.asl:1:4: error: this is no UTF-8)\n$")
                self.assertFalse(os.path.exists(out))


if __name__ == "__main__":
    unittest.main()
