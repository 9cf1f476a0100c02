"""The tables of docs/PORT.md, as the rules have them. `python3 companions/jasonport/document.py` puts them into the page."""
from __future__ import annotations

import pathlib
import sys

if __name__ == "__main__":
    sys.path[0] = str(pathlib.Path(__file__).resolve().parent.parent)

from jasonport import files, jacamo, project, rules  # noqa: E402
from jasonport.rules import table  # noqa: E402

PAGE = pathlib.Path(__file__).resolve().parent.parent.parent / "docs/PORT.md"
HEAD = "| In Jason | | Here | What differs | Tests |\n|---|---|---|---|---|"
MODULES = [f"{rules.__name__}.{name}" for name in rules.ORDER] + [it.__name__ for it in (project, jacamo, files)]


def rows() -> list[table.Row]:
    """The rows by subjects, in the order of the modules."""
    return sorted(table.ROWS, key=lambda row: MODULES.index(row.module))


def text_of_table() -> str:
    return "\n".join([HEAD, *map(str, rows())]) + "\n"


def table_in(page: str) -> str:
    """The table that a page has."""
    start = page.index(HEAD)
    return page[start : page.index("\n\n", start) + 1]


if __name__ == "__main__":
    old = PAGE.read_text(encoding="utf-8")
    PAGE.write_text(old.replace(table_in(old), text_of_table()), encoding="utf-8")
