#!/usr/bin/env python3
"""A campaign: many runs of an auction, by its parameters. docs/CAMPAIGNS.md shows how to use it.

    campaign.py make FOLDER [RUNS]   writes the projects, and FOLDER/runs.txt with a line for each run; RUNS of each project (50)
    campaign.py run FOLDER N ..      makes the runs of these lines, counted from 1, and checks their reports
    campaign.py gather FOLDER        writes FOLDER/runs.csv, and a summary

A run that is done is not made again: what was interrupted is called once more. The environment variable JASONRUN names the
program (jasonrun if left out)."""
import collections
import csv
import os
import pathlib
import random
import re
import shutil
import subprocess
import sys

HERE = pathlib.Path(__file__).resolve().parent
PROGRAM = os.environ.get("JASONRUN", "jasonrun")

BIDDERS = (2, 3, 4, 5, 6)
RESERVES = (20, 40, 60, 80)
SEED = 1
# the first run of a project has one worker, and so always the same order of turns; the others take these ways in turn
WAYS = ("--workers 4 --pool ready", "--workers 2 --pool steal", "--workers 3 --pool steal", "--workers 4 --pool steal")
COLUMNS = "project bidders reserve seed run options winner price ends cycles turns status check".split()


def limits(bidders, seed):
    """The most that each bidder pays. All chance of a campaign is here, in what the files say; a run has none."""
    chance = random.Random(seed)
    return [30 + 10 * int(chance.random() * 8) for _ in range(bidders)]


def project(folder, bidders, reserve, seed):
    """Writes a project: the agents' source and the act as in the project beside this file, with other numbers."""
    folder.mkdir()
    shutil.copy(HERE / "bidder.asl", folder)
    (folder / "campaign.mas2j").write_text(re.sub(r"#\d+", f"#{bidders}", (HERE / "campaign.mas2j").read_text()))
    act = (HERE / "campaign.env").read_text().split("\n\n", 1)[1]
    facts = [f"best({reserve}, nobody)."] + [f"for(bidder{i}, limit({it}))." for i, it in enumerate(limits(bidders, seed), 1)]
    (folder / "campaign.env").write_text("\n".join(facts) + "\n\n" + act)


def make(folder, runs=50):
    if folder.exists():
        sys.exit(f"{folder} is there already")
    lines = []
    folder.mkdir(parents=True)
    for bidders in BIDDERS:
        for reserve in RESERVES:
            name = f"b{bidders}_r{reserve}_s{SEED}"
            project(folder / name, bidders, reserve, SEED)
            lines += [f"{name} {k} {'--workers 1' if k == 1 else WAYS[k % len(WAYS)]}" for k in range(1, int(runs) + 1)]
    (folder / "runs.txt").write_text("\n".join(lines) + "\n")
    print(f"{len(lines)} runs of {len(BIDDERS) * len(RESERVES)} projects in {folder}")


def lines_of(folder):
    """The runs: of each its project, its number there, and its options."""
    return [line.split(" ", 2) for line in (folder / "runs.txt").read_text().splitlines()]


def make_run(folder, name, k, options):
    """The report of a run goes to NAME/RUN.report; NAME/RUN.done, written last, has its status and what `check` said."""
    report, done = folder / name / f"{k}.report", folder / name / f"{k}.done"
    if done.exists():
        return
    source = str(folder / name / "campaign.mas2j")
    with open(report, "wb") as out:
        status = subprocess.run([PROGRAM, "run", source, *options.split()], stdout=out).returncode
    check = subprocess.run([PROGRAM, "check", source, str(report)], capture_output=True, text=True).stdout.strip()
    whole = done.with_suffix(".new")
    whole.write_text(f"{status} {check or 'fault'}\n")
    whole.rename(done)


def run(folder, *numbers):
    """Makes the runs of these lines that there are, and then tells of those that there are not."""
    if not shutil.which(PROGRAM):
        sys.exit(f"campaign.py: there is no program {PROGRAM}: put jasonrun into the path, or its name into the variable JASONRUN")
    lines = lines_of(folder)
    there = {str(number): line for number, line in enumerate(lines, 1)}
    for number in numbers:
        if number in there:
            make_run(folder, *there[number])
    missing = [number for number in numbers if number not in there]
    if missing:
        sys.exit(f"campaign.py: {folder / 'runs.txt'} has {len(lines)} lines, and no line {', '.join(missing)}")


def row(folder, name, k, options):
    """A line of the table: from the name of the project, and from the report."""
    bidders, reserve, seed = re.fullmatch(r"b(\d+)_r(\d+)_s(\d+)", name).groups()
    status, check = (folder / name / f"{k}.done").read_text().split()
    report = (folder / name / f"{k}.report").read_text()
    price, winner = (re.findall(r"(?m)^fact best\((\d+),(\w+)\)$", report) or [("", "")])[0]
    ended = re.findall(r"(?m)^end \w+ (\w+) (\d+)$", report)
    ends = " ".join(f"{word}:{count}" for word, count in sorted(collections.Counter(word for word, _ in ended).items()))
    turns = (re.findall(r"(?m)^schedule (\d+)$", report) or [""])[0]
    return [name, bidders, reserve, seed, k, options, winner, price, ends, sum(int(it) for _, it in ended), turns, status, check], report.splitlines()[-1:]


def gather(folder):
    rows, orders, missing = [], collections.defaultdict(set), 0
    for name, k, options in lines_of(folder):
        if (folder / name / f"{k}.done").exists():
            cells, order = row(folder, name, k, options)
            rows.append(dict(zip(COLUMNS, cells)))
            orders[name].add(tuple(order))
        else:
            missing += 1
    with open(folder / "runs.csv", "w", newline="") as out:
        table = csv.DictWriter(out, COLUMNS, lineterminator="\n")
        table.writeheader()
        table.writerows(rows)
    print("project      runs orders outcomes: winner price (runs, * with one worker)")
    for name in dict.fromkeys(it["project"] for it in rows):
        own = [it for it in rows if it["project"] == name]
        outcomes = collections.Counter((it["winner"], it["price"]) for it in own)
        alone = {(it["winner"], it["price"]) for it in own if it["options"] == "--workers 1"}
        shown = ", ".join(f"{w} {p} ({n}{'*' if (w, p) in alone else ''})" for (w, p), n in outcomes.most_common())
        print(f"{name:12} {len(own):4} {len(orders[name]):6} {len(outcomes)}: {shown}")
    checks = collections.Counter(it["check"] for it in rows)
    statuses = collections.Counter(it["status"] for it in rows)
    print("checks:", *(f"{word} {n}" for word, n in sorted(checks.items())))
    print("statuses:", *(f"{word} in {n}" for word, n in sorted(statuses.items())))
    print(f"{len(rows)} runs in {folder / 'runs.csv'}, {missing} not made")
    return 0 if missing == 0 and set(checks) == {"yes"} else 1


def main(words):
    if len(words) < 2 or words[0] not in ("make", "run", "gather"):
        print(__doc__, file=sys.stderr)
        return 2
    return {"make": make, "run": run, "gather": gather}[words[0]](pathlib.Path(words[1]), *words[2:])


sys.exit(main(sys.argv[1:]))
