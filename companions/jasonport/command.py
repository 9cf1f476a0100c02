"""The command `jasonport`."""
from __future__ import annotations

import os
import shutil
import subprocess
import sys
from dataclasses import dataclass
from typing import NoReturn, Optional

from . import VERSION
from .files import NotWritten, Ported, check_folder, port_file, write_folder
from .lexer import Fault
from .notes import Page
from .source import NotKept, NotText, read_text

USAGE = """usage: jasonport PROJECT -o FOLDER [--turn MS]    writes a project of jasonrun into FOLDER, and what is to know or to do
       jasonport --list PROJECT [--turn MS]       writes what is to know or to do alone
       jasonport --help | --version
PROJECT is a .mas2j or a .jcm file, or an .asl file, the source of one agent. FOLDER is a new one, or empty.
MS is how many milliseconds of a .wait are one turn: 1 to 1000000 (100).
"""
TURN = 100
TURNS = range(1, 1_000_001)
DONE, TODOS, WORDS, FILE, REFUSED, UNASKED = range(6)


class Ended(Exception):
    """The end of the program, with a status and a line for standard error."""

    def __init__(self, status: int, line: str):
        super().__init__(line)
        self.status, self.line = status, line


@dataclass
class Asked:
    """What the words ask for."""

    project: str
    folder: Optional[str]
    turn: int


def fail_words(why: str) -> NoReturn:
    raise Ended(WORDS, f"jasonport: {why}\n{USAGE}".rstrip("\n"))


def read_words(words: list[str]) -> Asked:
    """What the words ask for; options stand anywhere, each once at most."""
    values: dict[str, str] = {}
    names: list[str] = []
    rest = iter(words)
    for word in rest:
        option, has_value, value = word.partition("=")
        if option not in ("-o", "--turn", "--list") or option != "--turn" and has_value:
            if word.startswith("-"):
                fail_words(f"there is no option {word}")
            names.append(word)
            continue
        if option in values:
            fail_words(f"{option} stands twice")
        values[option] = value if has_value or option == "--list" else next(rest, "")
    if len(names) != 1 or ("-o" in values) == ("--list" in values):
        fail_words("one PROJECT, and either -o FOLDER or --list")
    if not names[0].endswith((".mas2j", ".jcm", ".asl")):
        fail_words(f"{names[0]} is no .mas2j, .jcm or .asl")
    if values.get("-o") == "":
        fail_words("behind -o stands a folder")
    return Asked(names[0], values.get("-o"), turn_of(values.get("--turn", str(TURN))))


def turn_of(text: str) -> int:
    if not (text.isascii() and text.isdigit()) or int(text[:9]) not in TURNS or len(text) > 7:
        fail_words(f"--turn is {TURNS[0]} to {TURNS[-1]}")
    return int(text)


# ---- jasonlook


def find_jasonlook() -> Optional[str]:
    """$JASONLOOK; else the program of this checkout or installation; else one in the path."""
    named = os.environ.get("JASONLOOK")
    if named:
        return shutil.which(named)
    top = os.path.dirname(os.path.dirname(os.path.dirname(os.path.realpath(__file__))))
    beside = [os.path.join(top, "jasonlook"), os.path.join(top, "crates/jasonlook/out/jasonlook"), os.path.join(top, "../../bin/jasonlook")]
    return next((it for it in map(os.path.normpath, beside) if os.path.isfile(it) and os.access(it, os.X_OK)), None) or shutil.which("jasonlook")


class Gate:
    """The last step: `jasonlook where` reads what was written."""

    def __init__(self) -> None:
        self.unasked = ""

    def accepts(self, folder: str, main: str) -> bool:
        """Whether the project is read. Where jasonlook can't be asked it counts as read, and that is told."""
        program = find_jasonlook()
        if program is None:
            self.unasked = "jasonlook was not found"
            return True
        try:
            words = [os.path.abspath(program), "where", os.path.join(".", main)]
            call = subprocess.run(words, cwd=folder, stdout=subprocess.PIPE, encoding="utf-8", errors="replace")
        except OSError as error:
            self.unasked = f"{program} can't be run: {error.strerror}"
            return True
        if call.returncode == 125:
            self.unasked = f"{program} can't answer"
            return True
        if call.returncode == 0:
            return True
        sys.stderr.write(call.stdout)
        return False


# ---- The program


def ported(asked: Asked) -> Ported:
    """The port, or the end of the program with the place of what is wrong."""
    try:
        return port_file(asked.project, asked.turn)
    except Fault as fault:
        line, column = Page(asked.project, read_text(asked.project), []).place(fault.place)
        raise Ended(FILE, f"{asked.project}:{line}:{column}: error: {fault.text}") from fault
    except NotText as fault:
        raise Ended(FILE, str(fault)) from fault
    except NotKept as fault:
        raise Ended(REFUSED, f"jasonport: a fault of jasonport: {fault}") from fault
    except (ArithmeticError, AssertionError, AttributeError, LookupError, RecursionError, TypeError, ValueError) as fault:
        raise Ended(REFUSED, f"{asked.project}:1:1: error: a fault of jasonport: {fault!r}") from fault


def tell(result: Ported) -> None:
    for note in result.notes:
        print(note)
    sys.stdout.flush()


def run(words: list[str]) -> int:
    """The status of the program; what it has to say goes out."""
    if words in (["--help"], ["-h"]):
        print(USAGE, end="")
        return DONE
    if words in (["--version"], ["-V"]):
        print(f"jasonport {VERSION}")
        return DONE
    asked = read_words(words)
    if asked.folder is not None:
        check_folder(asked.folder)
    result = ported(asked)
    status = TODOS if result.has_todos else DONE
    if asked.folder is None:
        tell(result)
        return status
    gate = Gate()

    def is_accepted(folder: str) -> bool:
        accepted = gate.accepts(folder, result.main)
        tell(result)
        return accepted

    if not write_folder(result.files, asked.folder, is_accepted):
        raise Ended(REFUSED, "jasonport: jasonrun would not read what came of it, so nothing is written: what jasonlook tells of it stands above")
    if gate.unasked:
        path = os.path.join(asked.folder, result.main)
        raise Ended(UNASKED, f"jasonport: written, and not checked: {gate.unasked}. `jasonlook where {path}` tells whether jasonrun reads it")
    return status


def main(words: list[str]) -> int:
    try:
        return run(words)
    except Ended as end:
        print(end.line, file=sys.stderr)
        return end.status
    except OSError as error:
        print(f"jasonport: {error.filename or 'standard output'}: {error.strerror}", file=sys.stderr)
        return FILE
    except NotWritten as error:
        print(f"jasonport: {error}", file=sys.stderr)
        return FILE
    except KeyboardInterrupt:
        return 130

