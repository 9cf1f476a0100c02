"""The files that come of a port, and how they get into a folder: all, or none."""
from __future__ import annotations

import os
import re
import shutil
import tempfile
from dataclasses import dataclass, field
from typing import Callable, Optional

from . import java
from .jacamo import read_jcm
from .notes import Note, Page
from .porting import Porting
from .project import SOURCE_FOLDERS, Agent, Project, find_source, is_same_project, project_text, read_mas2j
from .rules.table import row
from .source import Source, read_text, relative_name
from .words import call, flat_name, lower_first


@dataclass
class Ported:
    """What came of a port: the files by their names, the one that jasonrun is called with, and what is told."""

    main: str
    files: dict[str, str] = field(default_factory=dict)
    notes: list[Note] = field(default_factory=list)

    @property
    def has_todos(self) -> bool:
        return any(note.kind == "todo" for note in self.notes)


def port_file(path: str, turn: int) -> Ported:
    """The port of a project, or of one agent."""
    porting = Porting(os.path.dirname(path), turn)
    if path.endswith(".asl"):
        source = Source(porting, path, os.path.basename(path))
        porting.port([source])
        return finished(porting, Ported(os.path.basename(path), {os.path.basename(path): source.written()}))
    page = Page(os.path.basename(path), read_text(path), porting.notes)
    project = (read_jcm if path.endswith(".jcm") else read_mas2j)(page)
    main = os.path.basename(path).removesuffix(".jcm").removesuffix(".mas2j") + ".mas2j"
    return finished(porting, Ported(main, port_project(porting, project, main)))


def finished(porting: Porting, ported: Ported) -> Ported:
    ported.notes = sorted(dict.fromkeys(porting.notes))
    return ported


def port_project(porting: Porting, project: Project, main: str) -> dict[str, str]:
    """The files of a project."""
    porting.source_folders = [os.path.join(porting.folder, it) for it in (".", *project.source_folders, *SOURCE_FOLDERS)]
    for agent in project.agents:
        porting.agents += agent.names
        porting.agent_names[agent.raw] = agent.name
    sources, names = read_sources(porting, project)
    porting.port(sources.values())
    files = {names[number]: f"// todo: {agent.file_name} is not there\n" for number, agent in enumerate(project.agents)}
    for name, source in sources.items():
        files[name] = source.written()
    environment = world_name(project)
    text = project_text(project, environment, names)
    is_kept = is_same_project(project.page.text, text)
    files[main] = project.page.text if is_kept else text
    if not is_kept and not project.page.noted:
        project.page.note(0, "spelled anew", "spelling")
    if environment:
        files[environment + ".env"] = world(porting, project, environment)
    elif porting.actions:
        project.page.todo(0, f"no environment, and actions: {', '.join(map(str, sorted(porting.actions)))}", "env")
    return files


def read_sources(porting: Porting, project: Project) -> tuple[dict[str, Source], dict[int, str]]:
    """The sources by the names that they get, and the name for each agent by its number."""
    sources: dict[str, Source] = {}
    names: dict[int, str] = {}
    known: dict[tuple[str, str], str] = {}
    for number, agent in enumerate(project.agents):
        path = find_source(project, porting.folder, agent)
        key = (os.path.realpath(path) if path else agent.file_name, agent.more)
        if key not in known:
            known[key] = source_name(agent, path, set(known.values()))
            if path is None:
                project.page.todo(agent.place, f"the source {agent.file_name} is not there", "missing")
            else:
                sources[known[key]] = Source(porting, path, relative_name(porting, path), more=agent.more)
        names[number] = known[key]
    return sources, names


def source_name(agent: Agent, path: Optional[str], taken: set[str]) -> str:
    """The name of the file that is written for an agent's source; one with clauses of its own is named as the agent."""
    stem = agent.name if agent.more or path is None else lower_first(flat_name(os.path.basename(path).removesuffix(".asl")))
    name, number = stem, 1
    while name + ".asl" in taken:
        number += 1
        name = f"{stem}_{number}"
    return name + ".asl"


# ---- The world


def world_name(project: Project) -> Optional[str]:
    if project.environment is None:
        return None
    name = project.environment.text.split(".")[-1]
    return name if re.fullmatch(r"[A-Za-z_]\w*", name, re.A) else "World"


@row(
    "an environment in Java",
    "X",
    "a `.env` with each action that the sources use, done by anybody and without effect; what usual lines of the class say is there as comments",
    tests="project_java",
)
def world(porting: Porting, project: Project, name: str) -> str:
    """The world that stands beside the project; else a beginning of one, with the actions of the sources."""
    path = os.path.join(porting.folder, name + ".env")
    if os.path.isfile(path):
        return read_text(path)
    named = project.environment.text
    lines = java.comments(porting.folder, named)
    found = "; what its usual lines say stands there as comments" if lines else ""
    text = f"the environment {named} is Java: {name}.env has its {len(porting.actions)} actions by name, and no facts{found}"
    project.page.todo(project.environment.place, text, "env")
    acts = [f"act {call(action.name, [f'X{count + 1}' for count in range(action.count)])} by A -> true." for action in sorted(porting.actions)]
    return "\n".join([f"// todo: the facts, and what each action needs and changes, from {named}", *lines, *acts]) + "\n"


# ---- Into a folder


class NotWritten(Exception):
    """Why nothing is written."""


def check_folder(folder: str) -> None:
    """Refuses a folder that has something in it, and what is none."""
    if os.path.lexists(folder) and not os.path.isdir(folder):
        raise NotWritten(f"{folder} is no folder")
    if os.path.isdir(folder) and os.listdir(folder):
        raise NotWritten(f"{folder} is not empty")
    if os.path.isdir(folder) and os.path.samefile(folder, os.curdir):
        raise NotWritten(f"{folder} is where you stand: name another folder")


def write_folder(files: dict[str, str], folder: str, is_accepted: Callable[[str], bool]) -> bool:
    """Writes the files into a temporary folder beside, which becomes the folder where it is accepted; else nothing is left. Answers whether
    it was accepted."""
    folder = os.path.realpath(folder)
    made = missing_parents(folder)
    os.makedirs(os.path.dirname(folder), exist_ok=True)
    accepted = False
    try:
        new = tempfile.mkdtemp(prefix=".jasonport.", dir=os.path.dirname(folder))
        try:
            for name, text in files.items():
                with open(os.path.join(new, name), "w", encoding="utf-8", errors="backslashreplace", newline="") as file:
                    file.write(text)
            if is_accepted(new):
                os.chmod(new, 0o777 & ~current_mask())
                os.rename(new, folder)
                accepted = True
        finally:
            shutil.rmtree(new, ignore_errors=True)
    finally:
        if not accepted:
            for parent in made:
                os.rmdir(parent)
    return accepted


def missing_parents(folder: str) -> list[str]:
    """The folders above that are not there, from below."""
    found, parent = [], os.path.dirname(folder)
    while not os.path.isdir(parent):
        found.append(parent)
        parent = os.path.dirname(parent)
    return found


def current_mask() -> int:
    mask = os.umask(0)
    os.umask(mask)
    return mask
