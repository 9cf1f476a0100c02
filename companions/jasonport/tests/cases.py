"""Cases of the port, as they stand in *.cases beside this file. Empty lines and those that begin with # say nothing.

- `case NAME` begins one. The names are distinct, and the rows of docs/PORT.md name them.
- `source`, then lines behind `| `: the source NAME.asl, with which the port is called. `file FILE`, then such lines: a file beside it.
- `files FOLDER`: the files of a folder beside the cases. `call FILE`: what the port is called with, where it is not NAME.asl.
- `notes` and `todos`: the codes of all, sorted, none where they are left out. The status of the port goes by them.
- `says`, then lines: what the agents say when jasonrun runs it, each line behind the agent's name and a colon where there are several.
- `report`, then lines: the lines `agent`, `say` and `end` of the report. Where neither is there it is run, and may say anything.
- `writes FILE`, then lines: they stand in this file that was written, in this order, others between them or not."""
from __future__ import annotations

import os
import pathlib
import re
import shutil
import subprocess
import tempfile
from dataclasses import dataclass, field
from typing import Iterable, Optional

HERE = pathlib.Path(__file__).resolve().parent
TOP = HERE.parent.parent.parent
TEXT_KEYS = ("source", "file", "says", "report", "writes")


@dataclass
class Case:
    name: str
    files: dict[str, str] = field(default_factory=dict)
    folder: Optional[pathlib.Path] = None
    word: str = ""
    notes: list[str] = field(default_factory=list)
    todos: list[str] = field(default_factory=list)
    says: Optional[list[str]] = None
    report: Optional[list[str]] = None
    writes: dict[str, list[str]] = field(default_factory=dict)

    def begin(self, key: str, rest: str) -> list[str]:
        """The list to which the lines of a key go."""
        lines: list[str] = []
        if key == "writes":
            self.writes[rest] = lines
        elif key in ("says", "report"):
            setattr(self, key, lines)
        return lines

    def set(self, key: str, rest: str) -> None:
        if key in ("notes", "todos"):
            setattr(self, key, rest.split())
        elif key == "files":
            self.folder = HERE / rest
        elif key == "call":
            self.word = rest
        else:
            raise ValueError(f"{self.name}: no key {key}")


def read_cases(path: pathlib.Path) -> list[Case]:
    cases: list[Case] = []
    lines: list[str] = []
    texts: list[tuple[Case, str, list[str]]] = []
    for line in path.read_text(encoding="utf-8").split("\n"):
        key, _, rest = line.partition(" ")
        if not line or line.startswith("#"):
            continue
        if key == "|":
            lines.append(line[2:])
        elif key == "case":
            cases.append(Case(rest, word=rest + ".asl"))
        elif key in TEXT_KEYS:
            lines = cases[-1].begin(key, rest)
            if key in ("source", "file"):
                texts.append((cases[-1], rest or cases[-1].name + ".asl", lines))
        else:
            cases[-1].set(key, rest)
    for case, name, text in texts:
        case.files[name] = "".join(line + "\n" for line in text)
    return cases


def all_cases() -> list[Case]:
    return [case for path in sorted(HERE.glob("*.cases")) for case in read_cases(path)]


# ---- What programs do


def jasonrun() -> str:
    """$JASONRUN; else the built program, or the script."""
    built = TOP / "crates/jasonrun/out/jasonrun"
    return os.environ.get("JASONRUN") or str(built if built.is_file() else TOP / "jasonrun")


def run(project: str, *words: str) -> tuple[str, str]:
    """The report of a run by one worker, and the line for standard error."""
    call = subprocess.run([jasonrun(), "run", project, "--workers", "1", "--level", "say", *words], capture_output=True, encoding="utf-8", timeout=60)
    return call.stdout, call.stderr


def of_report(report: str) -> list[str]:
    """The lines of a report that tell what the agents say and how they end."""
    return [line for line in report.split("\n") if re.match(r"agent |end |\d+ say ", line)]


def said(report: str) -> list[str]:
    """What the agents say, behind their names where there are several."""
    lines, name = of_report(report), ""
    several = sum(line.startswith("agent ") for line in lines) > 1
    found = []
    for line in lines:
        if line.startswith("agent "):
            name = line.removeprefix("agent ")
        elif not line.startswith("end "):
            found.append((f"{name}: " if several else "") + line.split(" ", 2)[2])
    return found


def first_missed(wanted: list[str], text: str) -> Optional[str]:
    """The first of the lines that does not stand in the text, or not in this order."""
    rest = iter(text.split("\n"))
    return next((line for line in wanted if line not in rest), None)


class Folder:
    """A folder for the files of a case."""

    def __init__(self) -> None:
        self.path = tempfile.mkdtemp(prefix="jasonport.")

    def __enter__(self) -> Folder:
        return self

    def __exit__(self, *_: object) -> None:
        shutil.rmtree(self.path)

    def put(self, case: Case) -> str:
        """Puts the files of a case into a folder of their own; the path of the word."""
        top = os.path.join(self.path, "in")
        os.mkdir(top)
        if case.folder:
            shutil.copytree(case.folder, top, dirs_exist_ok=True)
        for name, text in case.files.items():
            os.makedirs(os.path.dirname(os.path.join(top, name)), exist_ok=True)
            with open(os.path.join(top, name), "w", encoding="utf-8", newline="") as file:
                file.write(text)
        return os.path.join(top, case.word)


def codes(notes: Iterable, kind: str) -> list[str]:
    return sorted(note.code for note in notes if note.kind == kind)
