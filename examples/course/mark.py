#!/usr/bin/env python3
"""Marks a class. docs/COURSE.md shows how to use it.

    mark.py ASSIGNMENT STUDENT ..  [--csv FILE] [--keep FOLDER] [--files PATTERN] [--jobs N] [--seconds N] [--memory N]

ASSIGNMENT is a folder whose cases/CASE/ have files of the lecturer, among them one project (.mas2j) and the file `expect`. Each STUDENT is a folder of
sources. For each case they are copied into a new folder, the lecturer's files over them, and the project is run. What `expect` asks for is looked up in
the report; docs/COURSE.md has its lines.

--csv writes a table, a row for each student. --keep makes a new folder with the marks of each student, and the project, the report and what was found of
each case that is not right. --files says which files are taken (*.asl). --jobs is how many students are marked at a time (one for each processor). Each
call of a program has limits: --seconds of processor time (20), and five times as much on the clock; --memory in MiB (2048; 0: none).

Status 0: all are right; 1: some are not; 2: wrong words, or the lecturer's own files are at fault. JASONRUN, JASONLOOK and EXPLORE name the programs."""
import argparse
import collections
import concurrent.futures
import csv
import hashlib
import os
import pathlib
import re
import shutil
import signal
import subprocess
import sys
import tempfile

MIB = 1 << 20
# what one file of a student's may hold, as jasonrun permits, all of them together, and what a program may write
MOST_OF_FILE, MOST_OF_STUDENT, MOST_OF_OUTPUT = MIB, 8 * MIB, 64 * MIB
MOST_STATES = "100000"
KINDS = ("has", "once", "never", "atmost", "ends", "drops", "hints", "lint", "explore", "runs")
# the ways of the further runs, in turn; the first has one worker, and is the same each time
POOLS = ((4, "steal"), (3, "steal"), (2, "ready"))
WAYS = [f"--workers {workers} --lead {lead} --pool {pool}".split() for lead in (28, 48, 8) for workers, pool in POOLS]
# from that of which a student has to hear first, to that which may be no fault at all
STATUSES = ("unsafe", "refused", "crashed", "memory", "long", "late", "spent", "wrong", "unknown")

# a line of `expect`: its first word, the rest, and what the lecturer tells where it does not hold
Wanted = collections.namedtuple("Wanted", "kind line tell")
Finding = collections.namedtuple("Finding", "status text")
Marks = collections.namedtuple("Marks", "student findings sum")


# ---- Calls of the programs, under limits


class Called:
    """What a program did: its status, what it wrote, the last line of standard error, and, where it was ended, the finding that this is."""

    def __init__(self, status, written, said, ended):
        self.status, self.written, self.ended = status, written, ended
        self.output = written.decode(errors="replace")
        self.first = self.output.split("\n")[0]
        self.said = said.decode(errors="replace").strip().split("\n")[-1]


class Programs:
    """The programs, and the limits of each call."""

    def __init__(self, seconds, memory):
        self.seconds, self.memory = seconds, memory
        self.environment = dict(os.environ, JASONRUN_HINTS="0")

    def limited(self, words):
        """The words of a shell that sets the limits and is then the program."""
        memory = f"ulimit -v {self.memory * 1024} &&" if self.memory else ""
        return ["sh", "-c", f'ulimit -c 0 && ulimit -t {self.seconds} && ulimit -f {MOST_OF_OUTPUT // 512} && {memory} exec "$@"', "sh", *words]

    def call(self, program, *words):
        words = [os.environ.get(program.upper(), program), *map(str, words)]
        with tempfile.TemporaryFile() as output, tempfile.TemporaryFile() as fault:
            try:
                status = subprocess.run(
                    self.limited(words), stdin=subprocess.DEVNULL, stdout=output, stderr=fault, env=self.environment, timeout=5 * self.seconds
                ).returncode
            except subprocess.TimeoutExpired:
                return Called(None, b"", b"", Finding("late", f"{program} took more than {5 * self.seconds} seconds"))
            output.seek(0)
            fault.seek(0)
            return Called(status, output.read(), fault.read(), self.ended(program, status))

    def ended(self, program, status):
        """The finding that a limit is, by which the system ends a program with a signal, or short memory, which is a status of its own."""
        if status == 9:
            return Finding("memory", f"{program} had not enough memory")
        if status >= 0:
            return None
        if status == -signal.SIGXFSZ:
            return Finding("long", f"{program} wrote more than {MOST_OF_OUTPUT // MIB} MiB")
        if status in (-signal.SIGXCPU, -signal.SIGKILL):
            return Finding("late", f"{program} took more than {self.seconds} seconds of processor time")
        return Finding("crashed", f"{program} was ended by signal {-status}")

    def try_out(self, names):
        """Calls each once without limits, since a script of the repository builds it then, and once with them."""
        for name in names:
            words = ["demo", "1"] if name == "jasonrun" else ["--version"]
            program = os.environ.get(name.upper(), name)
            if not shutil.which(program):
                raise SystemExit(f'{program} is not in your path (README.md, "Run it"), nor named by {name.upper()}')
            if subprocess.run([program, *words], stdin=subprocess.DEVNULL, stdout=subprocess.DEVNULL).returncode != 0:
                raise SystemExit(f"{program} does not run")
            if self.call(name, *words).status != 0:
                raise SystemExit(f"{program} does not run with --memory {self.memory}: a build with AddressSanitizer needs --memory 0")


# ---- What is expected of a report


def lines_of(report):
    """The lines of a report as `expect` has them: with the name of their agent, and without the numbers of cycles."""
    agent = None
    for line in report.split("\n"):
        word, _, rest = line.partition(" ")
        if word == "agent":
            agent = rest
        elif word == "world":
            agent = None
        elif agent and word.isdigit():
            yield f"{agent}: {rest}"
        elif word == "end":
            yield line.rsplit(" ", 1)[0]
        elif word == "fact":
            yield line


def is_well_formed(kind, rest):
    first = rest.split(" ")[0]
    if kind in ("atmost", "runs"):
        return first.isdigit()
    if kind == "explore":
        return first in ("always", "never") and first != rest
    return kind in KINDS and bool(rest)


def read_expect(path):
    """What is wanted, line by line; a line `tell` belongs to the one before it."""
    wanted = []
    for number, line in enumerate(path.read_text().split("\n"), 1):
        if not line.strip() or line.startswith("#"):
            continue
        kind, _, rest = line.partition(" ")
        if kind == "tell" and wanted:
            wanted[-1] = wanted[-1]._replace(tell=rest)
        elif is_well_formed(kind, rest):
            wanted.append(Wanted(kind, rest, ""))
        else:
            raise SystemExit(f"{path}:{number}: this is none of the lines that docs/COURSE.md has: {line}")
    return wanted


def those_like(found, line):
    """The lines that are this one; where it ends in `...`, those that begin so."""
    return [it for it in found if it == line or line.endswith("...") and it.startswith(line[:-3])]


def how_ended(line):
    """What an end says that was not wanted."""
    _, agent, end = line.split(" ")
    return {
        "cycles": "{} did not end: at its limit of cycles it was still at work",
        "budget": "a search of {} was cut off",
        "stopped": "{} was stopped by an agent's .stopMAS",
        "quiet": "{} ended quietly",
    }[end].format(agent)


def faults_of_line(found, kind, line):
    """What is wrong with the lines of a report, by one line of `expect`."""
    most, _, rest = line.partition(" ")
    same = those_like(found, rest if kind == "atmost" else line)
    if kind in ("has", "once") and not same:
        yield f"nowhere in the report: {line}"
    elif kind == "once" and len(same) > 1:
        yield f"{len(same)} times in the report, wanted once: {line}"
    elif kind == "never" and same:
        yield f"in the report, and should not be: {same[0]}"
    elif kind == "atmost" and len(same) > int(most):
        yield f"{len(same)} times in the report, at most {most} wanted: {rest}"
    elif kind == "ends":
        yield from (how_ended(it) for it in found if it.startswith("end ") and it.split(" ")[2] != line)


def faults_of_report(report, wanted):
    """How it ended comes first, since it explains the others."""
    found = [*lines_of(report)]
    for it in sorted(wanted, key=lambda it: it.kind != "ends"):
        yield from (f"{it.tell}: {fault}" if it.tell else fault for fault in faults_of_line(found, it.kind, it.line))


# ---- A case of a student


def first_of_where(text):
    """The first place that is refused, with what mends it."""
    lines = text.split("\n")
    mend = next((it.strip()[2:] for it in lines[1:] if re.match(r" *= ", it)), None)
    return lines[0] + (f" ({mend})" if mend else "")


def first_of_drops(text):
    """The first entry, with its reason and the goal on top of its stack."""
    entry = text.split("\n\n")[0].split("\n")
    why = next((it.split("why", 1)[1].strip() for it in entry if it.startswith("  why ")), "")
    goal = next((it.strip() for it in entry if it.startswith("    ")), "")
    return entry[0] + ": " + why + (f", at {goal}" if goal else "")


class Case:
    """A case in the folder in which it is tried: the student's files, and the lecturer's over them."""

    def __init__(self, programs, folder, wanted):
        self.programs, self.folder, self.wanted = programs, folder, wanted
        self.project, self.report = None, folder / "report.txt"

    def findings(self):
        """What is found, one behind the other; nothing where it is right."""
        projects = [*self.folder.glob("*.mas2j")]
        if len(projects) != 1:
            yield Finding("refused", f"{len(projects)} projects")
            return
        self.project = projects[0]
        for part in (self.of_reading, self.of_runs, self.of_sources, self.of_claims):
            found = [*part()]
            yield from found
            if found:
                return

    def asks(self, kind, line):
        return any((it.kind, it.line) == (kind, line) for it in self.wanted)

    def shown(self, text):
        """With the names of files alone."""
        return text.replace(f"{self.folder}/", "")

    def of_reading(self):
        where = self.programs.call("jasonlook", "where", self.project)
        if where.ended or where.status != 0:
            yield where.ended or Finding("refused", self.shown(first_of_where(where.output or where.said)))

    def of_runs(self):
        """The first run with a fault ends them, and its report is the one that is kept."""
        runs = next((int(it.line) for it in self.wanted if it.kind == "runs"), 1)
        for number in range(runs):
            way = WAYS[(number - 1) % len(WAYS)] if number else ["--workers", "1"]
            found = [*self.of_run(way)]
            if found:
                last = f" (in run {number + 1}: {' '.join(way)})" if number else ""
                yield from (Finding(it.status, it.text + last) for it in found)
                return

    def of_run(self, way):
        run = self.programs.call("jasonrun", "run", self.project, *way)
        self.report.write_bytes(run.written)
        if run.ended or run.status not in (0, 8):
            yield run.ended or Finding("refused", self.shown(run.said))
            return
        if run.status == 8:
            yield Finding("spent", "the search of an agent was cut off")
        if self.asks("drops", "none"):
            yield from self.of_drops()
        yield from (Finding("wrong", it) for it in [*faults_of_report(run.output, self.wanted)][:3])

    def of_drops(self):
        drops = self.programs.call("jasonlook", "drops", self.project, self.report, "--unhandled")
        if drops.ended or drops.status != 0:
            (self.folder / "drops.txt").write_bytes(drops.written)
            yield drops.ended or Finding("wrong", first_of_drops(drops.output) if drops.status == 1 else drops.said)

    def of_sources(self):
        """What hints and lint say, where they are asked."""
        if self.asks("hints", "none"):
            hints = self.programs.call("jasonlook", "hints", self.project)
            if hints.ended or hints.status != 0:
                yield hints.ended or Finding("wrong", self.shown(hints.first))
        if self.asks("lint", "yes"):
            lint = self.programs.call("jasonrun", "lint", self.project)
            if lint.ended or lint.status != 0:
                yield lint.ended or Finding("wrong", f"a goal that no plan covers: {self.shown(lint.first)}")

    def of_claims(self):
        for it in self.wanted:
            if it.kind == "explore":
                yield from self.of_claim(*it.line.split(" ", 1))

    def of_claim(self, how, line):
        told = self.programs.call("explore", self.project, f"--{how}={line}", "--states", MOST_STATES, "--level", "say")
        if told.status == 0:
            return
        (self.folder / "explore.txt").write_bytes(told.written)
        if told.status == 1:
            yield Finding("wrong", f"in some order of turns, {'without' if how == 'always' else 'with'} this line: {line}")
        elif told.ended and told.ended.status not in ("late", "memory"):
            yield told.ended
        else:
            yield Finding("unknown", f"explore has no answer, {how} this line: {line}")


# ---- A student


def names_other_folders(project):
    """Whether a quoted name of a project may lead out of its folder."""
    return re.search(r'"[^"\n]*(/|\\|\.\.)[^"\n]*"', project.read_text(errors="replace"))


def files_of(student, patterns):
    return [it for it in sorted(student.iterdir()) if any(it.match(pattern) for pattern in patterns)]


def why_unsafe(taken, patterns):
    """Why these files are not run, or nothing. Projects of theirs may name files of the same folder alone."""
    for it in taken:
        if it.is_symlink() or not it.is_file() or not os.access(str(it), os.R_OK):
            return f"{it.name} is no plain file that can be read"
        if it.stat().st_size > MOST_OF_FILE:
            return f"{it.name} has more than a MiB"
        if it.suffix == ".mas2j" and names_other_folders(it):
            return f"{it.name} names a file of another folder"
    if sum(it.stat().st_size for it in taken) > MOST_OF_STUDENT:
        return f"the files have more than {MOST_OF_STUDENT // MIB} MiB"
    return None if taken else f"there is no file {' '.join(patterns)}"


def sum_of(taken):
    """The same for sources that differ in their comments and blanks alone."""
    text = "\n".join(it.read_text(errors="replace") for it in taken)
    text = re.sub(r"//[^\n]*|/\*.*?\*/", " ", text, flags=re.S)
    return hashlib.sha256(re.sub(r"\s+", "", text).encode()).hexdigest()


class Assignment:
    """The cases with what they expect, and how students are marked."""

    def __init__(self, folder, programs, patterns, keep):
        self.programs, self.patterns, self.keep = programs, patterns, keep
        self.cases = {it.parent: read_expect(it) for it in sorted(folder.glob("cases/*/expect"))}
        if not self.cases or any(len([*it.glob("*.mas2j")]) > 1 for it in self.cases):
            raise SystemExit(f"{folder}: there is no cases/CASE/expect, or more than one project beside it")

    def asks_explore(self):
        return any(it.kind == "explore" for wanted in self.cases.values() for it in wanted)

    def mark(self, student):
        """The findings of each case."""
        taken = files_of(student, self.patterns)
        why = why_unsafe(taken, self.patterns)
        if why:
            marks = Marks(student.name, {case.name: [Finding("unsafe", why)] for case in self.cases}, None)
        else:
            marks = Marks(student.name, {case.name: self.mark_case(student, taken, case) for case in self.cases}, sum_of(taken))
        if self.keep:
            (self.keep / student.name).mkdir(exist_ok=True)
            (self.keep / student.name / "marks.txt").write_text(text_of(marks), errors="backslashreplace")
        return marks

    def mark_case(self, student, taken, case):
        with tempfile.TemporaryDirectory(prefix="mark-") as folder:
            folder = pathlib.Path(folder)
            for it in (*taken, *case.iterdir()):
                if it.name != "expect":
                    shutil.copy(str(it), str(folder))
            found = [*Case(self.programs, folder, self.cases[case]).findings()]
            if found and self.keep:
                shutil.copytree(str(folder), str(self.keep / student.name / case.name))
        return found


# ---- The table


def status_of(found):
    return min((it.status for it in found), key=STATUSES.index) if found else "right"


def right_of(marks):
    return sum(not found for found in marks.findings.values())


def told(marks):
    """The findings as lines, that first of which a student has to hear first."""
    every = [(STATUSES.index(it.status), f"{case}: {it.status}: {it.text}") for case, found in marks.findings.items() for it in found]
    return [line for _, line in sorted(every, key=lambda it: it[0])]


def text_of(marks):
    return f"{marks.student}: {right_of(marks)} of {len(marks.findings)}\n" + "".join(f"  {line}\n" for line in told(marks))


def plain(cell):
    """A cell that no spreadsheet takes for a formula."""
    return "'" + cell if cell.startswith(("=", "+", "-", "@", "\t", "\r")) else cell


def write_table(path, cases, every, same):
    with path.open("w", newline="", errors="backslashreplace") as file:
        table = csv.writer(file)
        table.writerow(["student", "right", "of", *cases, "same as", "first to tell"])
        for marks in every:
            row = [marks.student, right_of(marks), len(cases), *map(status_of, marks.findings.values()), same[marks.student], (told(marks) or [""])[0]]
            table.writerow([plain(str(it)) for it in row])


def copies(every):
    """Of each student an earlier one whose sources are the same, or nothing."""
    first = {}
    found = {marks.student: first.setdefault(marks.sum or marks.student, marks.student) for marks in every}
    return {student: "" if other == student else other for student, other in found.items()}


# ---- The words


def words():
    parser = argparse.ArgumentParser(usage=__doc__)
    parser.add_argument("assignment", type=pathlib.Path)
    parser.add_argument("students", type=pathlib.Path, nargs="+")
    parser.add_argument("--csv", type=pathlib.Path)
    parser.add_argument("--keep", type=pathlib.Path)
    parser.add_argument("--files", action="append")
    parser.add_argument("--jobs", type=int, default=os.cpu_count())
    parser.add_argument("--seconds", type=int, default=20)
    parser.add_argument("--memory", type=int, default=2048)
    return parser.parse_args()


def check_folders(asked):
    names = [it.name for it in asked.students]
    for it in asked.students:
        if not it.is_dir() or names.count(it.name) > 1:
            raise SystemExit(f"{it}: no folder, or a second one of this name")
    if asked.keep:
        if asked.keep.exists():
            raise SystemExit(f"{asked.keep} is there already")
        asked.keep.mkdir(parents=True)


def main():
    asked = words()
    sys.stdout.reconfigure(errors="backslashreplace")
    programs = Programs(asked.seconds, asked.memory)
    assignment = Assignment(asked.assignment, programs, asked.files or ["*.asl"], asked.keep)
    programs.try_out(["jasonrun", "jasonlook"] + ["explore"] * assignment.asks_explore())
    check_folders(asked)
    every = []
    with concurrent.futures.ThreadPoolExecutor(max(1, asked.jobs)) as pool:
        for marks in pool.map(assignment.mark, asked.students):
            every.append(marks)
            print(text_of(marks), end="", flush=True)
    same = copies(every)
    for student, other in same.items():
        if other:
            print(f"{student}: the same sources as {other}")
    if asked.csv:
        write_table(asked.csv, [case.name for case in assignment.cases], every, same)
    return 1 if any(found for marks in every for found in marks.findings.values()) else 0


if __name__ == "__main__":
    try:
        sys.exit(main())
    except SystemExit as end:
        if isinstance(end.code, str):
            print(end.code, file=sys.stderr)
            sys.exit(2)
        raise
