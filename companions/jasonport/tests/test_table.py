"""docs/PORT.md says what the rules do, and each of its rows has a test."""
from __future__ import annotations

import os
import re
import unittest

from .. import document
from ..command import USAGE
from ..files import port_file
from ..notes import CODES
from . import cases


def indented(text: str) -> list[str]:
    """The indented blocks of a text, which may have empty lines in them."""
    found, inside = [], False
    for line in text.split("\n"):
        if line.startswith("    "):
            found += [] if inside else [""]
            found[-1] += line[4:] + "\n"
            inside = True
        elif line == "" and inside:
            found[-1] += "\n"
        else:
            inside = False
    return found


class Table(unittest.TestCase):
    def setUp(self) -> None:
        self.page = document.PAGE.read_text(encoding="utf-8")

    def test_table_is_that_of_the_rules(self) -> None:
        wanted = document.text_of_table()
        self.assertEqual(document.table_in(self.page), wanted, "companions/jasonport/document.py writes it into the page")

    def test_each_row_has_a_case(self) -> None:
        known = {case.name: case for case in cases.all_cases()}
        for row in document.rows():
            with self.subTest(row.construct):
                self.assertIn(row.how, ("S", "E", "D", "X"))
                self.assertTrue(row.tests)
                self.assertEqual([name for name in row.tests if name not in known], [])
                if row.how == "X":
                    self.assertTrue(any(known[name].todos for name in row.tests))

    def test_codes(self) -> None:
        told = re.findall(r"(?m)^\| `(\w+)` \|", self.page.split("\n## Codes\n")[1].split("\n## ")[0])
        self.assertEqual(told, sorted(CODES))
        source = "".join(path.read_text(encoding="utf-8") for path in cases.HERE.parent.rglob("*.py") if cases.HERE not in path.parents)
        used = set(re.findall(r'"([a-z]+)"', source))
        self.assertEqual(sorted(CODES - used), [])

    def test_first_port(self) -> None:
        """The example of the page: the source, what is told of it, and what comes of its last clause."""
        part = self.page.split("\n## A first port\n")[1].split("\n## ")[0]
        source, told, last = (text.rstrip("\n") + "\n" for text in indented(part))
        with cases.Folder() as folder:
            path = os.path.join(folder.path, "shop.asl")
            with open(path, "w", encoding="utf-8") as file:
                file.write(source)
            result = port_file(path, 100)
        self.assertEqual("".join(f"{note}\n" for note in result.notes), told)
        kept = source[: source.index("+!open")]
        self.assertEqual(result.files["shop.asl"], kept + last)

    def test_usage(self) -> None:
        self.assertIn("".join(f"    {line}\n" if line else "\n" for line in USAGE.splitlines()), self.page)


if __name__ == "__main__":
    unittest.main()
