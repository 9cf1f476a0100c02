"""Project files of Jason, `.mas2j`: what they say, and the project that is written in their place."""
from __future__ import annotations

import os
import re
from dataclasses import dataclass, field
from typing import NamedTuple, NoReturn, Optional

from .lexer import Fault
from .notes import Page
from .rules.table import row
from .words import flat_name, is_legal, lower_first

TOKEN = re.compile(r'(?P<blank>[ \t\r\n]+|//[^\n]*|/\*.*?\*/)|(?P<string>"[^"\n]*")|(?P<word>[\w.$/\\-]+)|(?P<sign>.)', re.S)
SECTIONS = ("infrastructure", "environment", "executionControl", "agents", "directives", "classpath", "aslsourcepath")
CLASSES = ("agentArchClass", "agentClass", "beliefBaseClass")
SOURCE_FOLDERS = ("src/agt", "src/asl", "asl")


class Token(NamedTuple):
    kind: str
    text: str
    place: int


def tokens(text: str) -> list[Token]:
    found = [Token(match.lastgroup or "", match.group(), match.start()) for match in TOKEN.finditer(text)]
    return [it for it in found if it.kind != "blank"]


@dataclass
class Agent:
    """An entry of a project: how it is named there and here, its source, how many there are, and what its source has as well."""

    raw: str
    name: str
    place: int
    file: Optional[str] = None
    count: int = 1
    beliefs: list[str] = field(default_factory=list)
    goals: list[str] = field(default_factory=list)

    @property
    def file_name(self) -> str:
        name = self.file or self.raw
        return name if name.endswith(".asl") else name + ".asl"

    @property
    def more(self) -> str:
        """Clauses for the end of its source."""
        return "".join(f"{it}.\n" for it in self.beliefs) + "".join(f"!{it}.\n" for it in self.goals)

    @property
    def names(self) -> list[str]:
        return [self.name] if self.count == 1 else [f"{self.name}{count + 1}" for count in range(self.count)]


@dataclass
class Project:
    """What a project file says."""

    page: Page
    name: str = "mas"
    agents: list[Agent] = field(default_factory=list)
    environment: Optional[Token] = None
    source_folders: list[str] = field(default_factory=list)

    def note(self, token: Token, text: str, code: str) -> None:
        self.page.note(token.place, text, code)

    def legal_name(self, token: Token, taken: list[str] = []) -> str:
        """The name of the project or of an agent as jasonrun has it."""
        text = token.text.strip('"')
        name = lower_first(flat_name(text))
        name = name if is_legal(name) else "a" + name.strip("_")
        while name in taken:
            name += "_"
        if name != text:
            self.note(token, f"the name {text} is {name}", "name")
        return name


class ProjectReader:
    """The tokens of a project file, one after the other."""

    def __init__(self, page: Page):
        self.page, self.tokens, self.next = page, tokens(page.text), 0
        self.end = Token("end", "", len(page.text))
        self.project = Project(page)

    def ahead(self, count: int = 0) -> Token:
        place = self.next + count
        return self.tokens[place] if place < len(self.tokens) else self.end

    def take(self) -> Token:
        token = self.ahead()
        self.next += token.kind != "end"
        return token

    def takes(self, text: str) -> bool:
        """Takes the next token where it has this text."""
        if self.ahead().text != text or self.ahead().kind == "end":
            return False
        self.next += 1
        return True

    def fail(self, text: str) -> NoReturn:
        raise Fault(self.ahead().place, text)

    def missing(self, what: str) -> NoReturn:
        behind = self.ahead()
        self.fail(f"{what} is missing at the end of the file" if behind.kind == "end" else f"{what} is missing before '{behind.text}'")

    def need(self, text: str) -> Token:
        if self.ahead().text != text:
            self.missing(f"'{text}'")
        return self.take()

    def name(self) -> Token:
        if self.ahead().kind not in ("word", "string"):
            self.missing("a name")
        return self.take()

    def whole(self) -> Project:
        """The project, once all is read."""
        if not self.project.agents:
            self.fail("the project has no agent")
        if self.ahead().kind != "end":
            self.fail("nothing may stand behind the project")
        return self.project

    def skip_group(self) -> Token:
        """Goes on to behind what stands in brackets, from the opening one that is next; the closing one."""
        depth = 0
        while True:
            token = self.take()
            if token.kind == "end":
                self.missing("a closing bracket")
            depth += (token.text in ("(", "[")) - (token.text in (")", "]"))
            if depth == 0:
                return token


class Mas2jReader(ProjectReader):
    """A `.mas2j`, section by section."""

    def read(self) -> Project:
        if not self.takes("MAS"):
            self.fail("a project begins with MAS")
        self.project.name = self.project.legal_name(self.name())
        self.need("{")
        while not self.takes("}"):
            if self.ahead().kind == "end":
                self.fail("'}' is missing at the end of the file")
            self.section()
        return self.whole()

    def section(self) -> None:
        word = self.ahead()
        if word.kind != "word" or self.ahead(1).text != ":":
            self.fail(f"no section begins with '{word.text}'")
        self.next += 2
        if word.text == "agents":
            while not self.begins_section() and self.ahead().text != "}" and self.ahead().kind != "end":
                self.agent()
        elif word.text in ("infrastructure", "environment", "executionControl"):
            self.one_value(word)
        else:
            self.several_values(word)

    def begins_section(self) -> bool:
        return self.ahead().text in SECTIONS + ("classPath", "aslSourcePath") and self.ahead(1).text == ":"

    def one_value(self, word: Token) -> None:
        value = self.name()
        has_arguments = self.ahead().text == "("
        if has_arguments:
            self.skip_group()
        if self.takes("at"):
            self.name()
        if word.text == "environment":
            self.project.environment = Token(value.kind, value.text.strip('"'), word.place)
            if has_arguments:
                self.project.note(word, "the arguments of the environment are dropped", "env")
        elif word.text == "executionControl" or value.text not in ("Centralised", "Local"):
            self.project.note(word, f"{word.text} {value.text} is dropped", "project")
        elif has_arguments:
            self.project.note(word, f"the arguments of the {word.text} are dropped", "project")

    def several_values(self, word: Token) -> None:
        """Values of a section that names files or classes, with `;` behind them."""
        while not self.begins_section() and self.ahead().text != "}" and self.ahead().kind != "end":
            value = self.take()
            if word.text.lower() == "aslsourcepath" and value.kind in ("string", "word"):
                self.project.source_folders.append(value.text.strip('"'))
        if word.text.lower() not in ("aslsourcepath", "classpath"):
            self.project.note(word, f"the section {word.text} is dropped", "project")

    # ---- Agents

    def agent(self) -> None:
        token = self.name()
        taken = [name for agent in self.project.agents for name in agent.names + [agent.name]]
        agent = Agent(token.text.strip('"'), self.project.legal_name(token, taken), token.place)
        if self.ahead().kind in ("word", "string") and self.ahead().text not in CLASSES + ("at",):
            agent.file = self.take().text.strip('"')
        while not self.takes(";"):
            if self.ahead().text == "}" or self.ahead().kind == "end":
                self.fail(f"';' is missing behind the agent {agent.raw}")
            self.part_of(agent)
        self.project.agents.append(agent)

    def part_of(self, agent: Agent) -> None:
        token = self.take()
        if token.text == "#":
            agent.count = self.count()
        elif token.text == "[":
            self.next -= 1
            self.options(agent, token, self.page.text[token.place + 1 : self.skip_group().place])
        elif token.text == "at":
            self.name()
            self.project.note(token, "the host is dropped", "project")
        elif token.text in CLASSES:
            self.one_class(token)
        elif token.text != ",":
            raise Fault(token.place, f"'{token.text}' can't stand behind an agent")

    def count(self) -> int:
        token = self.ahead()
        if not re.fullmatch(r"[0-9]{1,9}", token.text) or int(token.text) < 1:
            self.fail("behind # stands how many agents there are")
        return int(self.take().text)

    def one_class(self, token: Token) -> None:
        name = self.name()
        if self.ahead().text == "(":
            self.skip_group()
        java_class(self.project, token, f"{token.text} {name.text}")

    def options(self, agent: Agent, token: Token, text: str) -> None:
        for name, value in option_values(text):
            if name == "beliefs":
                agent.beliefs += at_commas(value)
            elif name == "goals":
                agent.goals += at_commas(value)
            else:
                self.project.note(token, f"the option {name}={value} is dropped", "project")


@row("agentClass, agentArchClass, beliefBaseClass", "X", "dropped", tests="project_java project_jcm")
def java_class(project: Project, token: Token, named: str) -> None:
    """A class of an agent."""
    project.page.todo(token.place, f"{named} is a class in Java, and dropped: rules, plans, the world", "java")


def option_values(text: str) -> list[tuple[str, str]]:
    found = re.findall(r'(\w+)\s*=\s*("(?:[^"\\]|\\.)*"|[^,\]]+)', text)
    return [(name, re.sub(r"\\(.)", r"\1", value.strip().strip('"'))) for name, value in found]


def at_commas(text: str) -> list[str]:
    """The parts of a text between commas that stand in no brackets."""
    parts, depth = [""], 0
    for sign in text:
        depth += (sign in "([") - (sign in ")]")
        if sign == "," and depth == 0:
            parts.append("")
        else:
            parts[-1] += sign
    return [part.strip() for part in parts if part.strip()]


def read_mas2j(page: Page) -> Project:
    return Mas2jReader(page).read()


# ---- The project that is written


def find_source(project: Project, folder: str, agent: Agent) -> Optional[str]:
    """The source of an agent: beside the project, in its aslSourcePath, or where Jason's tools put sources."""
    places = [folder] + [os.path.join(folder, it) for it in (*project.source_folders, *SOURCE_FOLDERS)]
    return next((it for it in (os.path.join(place, agent.file_name) for place in places) if os.path.isfile(it)), None)


def file_word(name: str) -> str:
    """A file as a project names it."""
    return name if re.fullmatch(r"[a-z]\w*\.asl", name, re.A) else f'"{name}"'


@row(
    "`.mas2j`: infrastructure, agents with upper case, `#N`, files, aslSourcePath, options",
    "D",
    "written anew, where it says something else than blanks and comments; `beliefs=`, `goals=` go into a source of the agent's own",
    "`verbose`, hosts, executionControl and so on are dropped",
    tests="project project_options project_kept project_actions",
)
def project_text(project: Project, environment: Optional[str], files: dict[int, str]) -> str:
    """The text of the project; `files` has the source of each agent by its number."""
    lines = [f"MAS {project.name} {{", "    infrastructure: Centralised"]
    if environment:
        lines.append(f"    environment: {environment}")
    lines.append("    agents:")
    for number, agent in enumerate(project.agents):
        file = "" if files[number] == agent.name + ".asl" else " " + file_word(files[number])
        lines.append(f"        {agent.name}{file}{f' #{agent.count}' if agent.count > 1 else ''};")
    return "\n".join(lines) + "\n}\n"


def is_same_project(one: str, other: str) -> bool:
    """Whether two projects differ in blanks, comments and `infrastructure: Centralised` alone."""
    plain = lambda text: " ".join(it.text for it in tokens(text)).replace("infrastructure : Centralised ", "")
    return plain(one) == plain(other)
