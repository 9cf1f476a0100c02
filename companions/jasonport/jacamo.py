"""Project files of JaCaMo, `.jcm`: their agents."""
from __future__ import annotations

import re

from .lexer import Fault
from .notes import Page
from .project import Agent, Project, ProjectReader, Token, at_commas, java_class
from .rules.table import row

NAMES = re.compile(r"[\w-]+")
GONE = {
    "workspace": "artifacts are acts of the world, or the three of jasonrun's own",
    "organisation": "there are no organisations",
    "institution": "there are no institutions",
}
CLASSES = ("ag-class", "ag-arch", "ag-bb-class")
DROPPED = ("verbose", "debug", "node", "mindinspector")


class JcmReader(ProjectReader):
    """A `.jcm`, part by part."""

    def read(self) -> Project:
        if not self.takes("mas"):
            self.fail("a project of JaCaMo begins with mas")
        self.project.name = self.project.legal_name(self.name())
        self.need("{")
        while not self.takes("}"):
            if self.ahead().kind == "end":
                self.fail("'}' is missing at the end of the file")
            self.part()
        return self.whole()

    def part(self) -> None:
        word = self.name()
        if word.text == "agent":
            self.agent()
        elif word.text in GONE:
            name = self.name()
            self.project.page.todo(word.place, f"the {word.text} {name.text} is left out: {GONE[word.text]}", "world")
            self.skip_block()
        elif word.text == "asl-path":
            self.need(":")
            self.project.source_folders += [it.text.strip('"') for it in self.values()]
        else:
            self.project.note(word, f"{word.text} is dropped", "project")
            self.takes(":")
            self.values()
            self.skip_block()

    def values(self) -> list[Token]:
        """Words with commas between them."""
        found = [self.name()]
        while self.takes(","):
            found.append(self.name())
        return found

    def skip_block(self) -> None:
        """Goes on to behind the braces that follow, where a block does, past what stands before it in its line."""
        line = self.page.place(self.tokens[self.next - 1].place)[0]
        while self.ahead().kind != "end" and self.ahead().text not in ("{", "}") and self.page.place(self.ahead().place)[0] == line:
            self.next += 1
        depth = 0
        while self.ahead().text == "{" or depth:
            token = self.take()
            if token.kind == "end":
                self.fail("'}' is missing at the end of the file")
            depth += (token.text == "{") - (token.text == "}")

    def agent(self) -> None:
        token = self.name()
        taken = [name for agent in self.project.agents for name in agent.names + [agent.name]]
        agent = Agent(token.text.strip('"'), self.project.legal_name(token, taken), token.place)
        if self.takes(":"):
            agent.file = self.name().text.strip('"')
        if self.takes("{"):
            while not self.takes("}"):
                self.setting(agent)
        self.project.agents.append(agent)

    def setting(self, agent: Agent) -> None:
        word = self.name()
        self.need(":") if word.text != "debug" else self.takes(":")
        text = self.setting_text()
        if word.text == "instances":
            if not re.fullmatch(r"[1-9][0-9]{0,8}", text):
                raise Fault(word.place, "instances: stands before how many agents there are")
            agent.count = int(text)
        elif word.text in ("beliefs", "goals"):
            getattr(agent, word.text).extend(at_commas(text.replace("\n", " ")))
        elif word.text in CLASSES:
            java_class(self.project, word, f"{word.text} {text}")
        elif word.text in DROPPED:
            self.project.note(word, f"{word.text} is dropped", "project")
        else:
            self.project.page.todo(word.place, f"{word.text}: {' '.join(text.split())} is left out", "world")

    def setting_text(self) -> str:
        """What stands behind the name of a setting: up to the next, which is a word with a colon, or to the end of the block."""
        start, depth = self.ahead().place, 0
        while self.ahead().kind != "end":
            begins_next = NAMES.fullmatch(self.ahead().text) and self.ahead(1).text == ":"
            if depth == 0 and (self.ahead().text == "}" or begins_next):
                break
            text = self.take().text
            depth += (text in ("(", "[", "{")) - (text in (")", "]", "}"))
        if self.ahead().kind == "end":
            self.fail("'}' is missing at the end of the file")
        return self.page.text[start : self.ahead().place].strip().rstrip(";").strip()


@row(
    "`.jcm`",
    "D",
    "its agents, with their sources, beliefs, goals and instances, as a `.mas2j`",
    "workspaces, organisations, `join`, `focus`, `roles`: X",
    tests="project_jcm",
)
def read_jcm(page: Page) -> Project:
    return JcmReader(page).read()
