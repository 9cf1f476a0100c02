"""The cases: port, jasonlook, run."""
from __future__ import annotations

import os
import unittest
from concurrent.futures import ThreadPoolExecutor
from typing import Iterator

from ..command import Gate
from ..files import port_file, write_folder
from . import cases
from .cases import Case


def differences(case: Case) -> Iterator[str]:
    """What the port of a case does otherwise than it has to."""
    with cases.Folder() as folder:
        out = os.path.join(folder.path, "out")
        result = port_file(folder.put(case), 100)
        for what, wanted, got in (
            ("notes", case.notes, cases.codes(result.notes, "note")),
            ("todos", case.todos, cases.codes(result.notes, "todo")),
        ):
            if wanted != got:
                yield f"{what}: wanted {' '.join(wanted)}, got {' '.join(got)}"
        for name, lines in case.writes.items():
            missed = cases.first_missed(lines, result.files.get(name, ""))
            if missed is not None:
                yield f"{name}: not there, or not in this order: {missed}\n{result.files.get(name)}"
        gate = Gate()
        if not write_folder(result.files, out, lambda path: gate.accepts(path, result.main)):
            yield "jasonlook where refuses it\n" + "\n".join(result.files.values())
        elif gate.unasked:
            yield gate.unasked
        else:
            yield from differences_of_run(case, os.path.join(out, result.main))


def differences_of_run(case: Case, project: str) -> Iterator[str]:
    report, fault = cases.run(project, "--cycles", "400")
    if fault:
        yield f"jasonrun: {fault}"
    if case.says is not None and case.says != cases.said(report):
        yield f"wanted {case.says}, got {cases.said(report)}"
    if case.report is not None and case.report != cases.of_report(report):
        yield "wanted the report\n" + "\n".join(case.report) + "\ngot\n" + "\n".join(cases.of_report(report))


class Cases(unittest.TestCase):
    def test_cases(self) -> None:
        every = cases.all_cases()
        self.assertEqual(len({case.name for case in every}), len(every), "names of cases stand twice")
        with ThreadPoolExecutor(os.cpu_count()) as pool:
            for case, found in zip(every, pool.map(lambda case: list(differences(case)), every)):
                with self.subTest(case.name):
                    self.assertEqual("\n".join(found), "")


if __name__ == "__main__":
    unittest.main()
