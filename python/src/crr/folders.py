"""A command on several folders: one table with the folder first, all faults, and the worst status."""

from __future__ import annotations

import csv
import io
from functools import partial
from pathlib import Path
from typing import Callable, Dict, List, NamedTuple, Sequence

from .command import FAILS, FAULTY, PASSES, Answer, counted
from .faults import Faults, faults_of
from .native import Refused
from .opening import workers
from .to_csv import csv_text

Rows = List[Dict[str, str]]  # by heading
OneFolder = Callable[[Path], Answer]


def _note(answer: Answer) -> List[str]:
    return answer.note.splitlines()


class Table(NamedTuple):
    """The heading and rows of several answers, and the lines that are told beside them. What an answer has no
    column for is empty."""

    heading: Sequence[str]
    rows: Callable[[Answer], Rows]
    beside: Callable[[Answer], List[str]] = _note


def _read(text: str) -> "csv.DictReader[str]":
    return csv.DictReader(io.StringIO(text))


def as_printed(answers: Sequence[Answer]) -> Table:
    """The tables that the answers print, under the longest of their headings."""
    headings = [_read(answer.text).fieldnames or () for answer in answers]
    return Table(max(headings, key=len), lambda answer: list(_read(answer.text)))


_COUNTS = ("FORM", "NODES", "CONSTRAINTS", "CONTRACTS", "HOLDERS", "HOURS")


def as_counted(answers: Sequence[Answer]) -> Table:
    """What crr check counts, a row for each folder, and what it tells below that; one that has faults has
    their number alone."""

    def rows(answer: Answer) -> Rows:
        faults = answer.data.get("faults", [])
        counts = {name: str(answer.data.get(name.lower(), "")) for name in _COUNTS}
        return [{**counts, "FAULTS": str(len(faults) if isinstance(faults, list) else 0)}]

    return Table((*_COUNTS, "FAULTS"), rows, lambda answer: answer.text.splitlines()[1:])


def as_judged(answers: Sequence[Answer]) -> Table:
    """The verdicts that the answers print; a folder that has faults has a row that says so."""
    printed = as_printed(answers)
    faulty: Rows = [{"VERDICT": "faulty"}]
    return Table(printed.heading, lambda each: faulty if each.status == FAULTY else printed.rows(each))


def _tried(one: OneFolder, folder: Path) -> Answer:
    """The answer for a folder, with its faults where it has some: the others are answered too."""
    try:
        return one(folder)
    except (Faults, Refused, OSError) as problem:
        faults = [fault.within(folder) for fault in faults_of(problem)]
        return Answer(FAULTY, "", {"faults": [fault.object for fault in faults]}, f"{Faults(faults)}\n")


def _told(table: Table, folder: Path, answer: Answer) -> str:
    """What is told beside the table, each line with its folder; a fault has it already."""
    if answer.status == FAULTY:
        return answer.note
    return "".join(f"{folder}: {line}\n" for line in table.beside(answer))


def _summary(answers: Sequence[Answer]) -> str:
    failing, faulty = (sum(answer.status == status for answer in answers) for status in (FAILS, FAULTY))
    return f"{counted(len(answers), 'folder')}: {failing:,} failing, {faulty:,} with faults\n"


def each(
    one: OneFolder,
    folders: Sequence[Path],
    jobs: int,
    tabled: Callable[[Sequence[Answer]], Table] = as_printed,
) -> Answer:
    """The answer for one folder as it is; for several one table, in the order of folders."""
    if len(folders) == 1:
        return one(folders[0])
    with workers(jobs) as pool:
        task = partial(_tried, one)
        answers = list(pool.map(task, folders) if pool else map(task, folders))
    table = tabled(answers)
    rows = [
        (folder, *(row.get(name, "") for name in table.heading))
        for folder, answer in zip(folders, answers)
        for row in table.rows(answer)
    ]
    worst = max((answer.status for answer in answers), default=PASSES)
    data: Dict[str, object] = {"status": worst}
    data["folders"] = [
        {"folder": str(folder), "status": answer.status, **answer.data}
        for folder, answer in zip(folders, answers)
    ]
    note = "".join(map(partial(_told, table), folders, answers)) + _summary(answers)
    return Answer(worst, csv_text(("FOLDER", *table.heading), rows), data, note)
