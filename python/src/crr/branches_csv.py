"""Files of a network: branches, and contingencies that take them out.

branches        FROM_BUS,TO_BUS,REACTANCE, and where they are there BRANCH_ID, TAP_RATIO, LIMIT_MW,
                EMERGENCY_MW (the limit after an outage)
contingencies   CONTINGENCY_ID,BRANCH_ID: a row for each branch that goes out
"""

from __future__ import annotations

import re
from fractions import Fraction
from pathlib import Path
from typing import Dict, List, NamedTuple, Optional, Sequence, Tuple

from .faults import Fault, Faults, brief
from .interface import LIMIT
from .network import Branch, Contingency, Unsolved
from .sheet import Sheet

BRANCHES = ("FROM_BUS", "TO_BUS", "REACTANCE")
CONTINGENCIES = ("CONTINGENCY_ID", "BRANCH_ID")
_BESIDE = ("BRANCH_ID", "TAP_RATIO", "LIMIT_MW", "EMERGENCY_MW")
NUMBER = re.compile(r"[+-]?(?:[0-9]{1,30}(?:\.[0-9]{0,30})?|\.[0-9]{1,30})(?:[eE][+-]?[0-9]{1,2})?")


class Network(NamedTuple):
    """What the files say, and the line of each branch and of each contingency."""

    branches: List[Branch]
    contingencies: List[Contingency]
    branch_lines: List[int]
    contingency_lines: List[int]


def _number(sheet: Sheet, line: int, column: str, row: List[str], missing: str = "") -> Fraction:
    """An exact number; one that is none is a fault, and gives 1."""
    text = row[sheet.at[column]] if column in sheet.at else missing
    text = text or missing
    if NUMBER.fullmatch(text):
        return Fraction(text)
    sheet.fault(line, column, f"{brief(text)!r} is not a number" if text else "empty")
    return Fraction(1)


def _limit(sheet: Sheet, line: int, column: str, row: List[str]) -> Optional[int]:
    """A limit in thousandths of a MW; none where its field is empty."""
    text = row[sheet.at[column]] if column in sheet.at else ""
    return sheet.figure(line, sheet.at[column], text, LIMIT) if text else None


def _name(row: Sequence[str], sheet: Sheet, ends: Tuple[str, str], count: Dict[Tuple[str, str], int]) -> str:
    """A branch's name: its own, or its ends' with a number from the second of parallel ones on."""
    name = parallel_name(ends, count)
    return row[sheet.at["BRANCH_ID"]] if "BRANCH_ID" in sheet.at else name


def parallel_name(ends: Tuple[str, str], count: Dict[Tuple[str, str], int]) -> str:
    """A branch's ends, with a number from the second of parallel ones on."""
    count[ends] = count.get(ends, 0) + 1
    return "-".join(ends) + (f" {count[ends]}" if count[ends] > 1 else "")


def read_branches(path: Path, faults: List[Fault]) -> Tuple[List[Branch], List[int]]:
    """The branches of a file, and the line of each."""
    sheet = Sheet(path, BRANCHES, faults, may=_BESIDE)
    branches: List[Branch] = []
    lines: List[int] = []
    if len(sheet.at) < len(BRANCHES):
        return branches, lines
    sheet.at.update(sheet.also)
    count: Dict[Tuple[str, str], int] = {}
    for line, row in sheet.rows():
        start, end = row[sheet.at["FROM_BUS"]], row[sheet.at["TO_BUS"]]
        sheet.name_in(line, "FROM_BUS", start)
        sheet.name_in(line, "TO_BUS", end)
        name = _name(row, sheet, (start, end), count)
        if "BRANCH_ID" in sheet.at:
            sheet.name_in(line, "BRANCH_ID", name)
        tap = _number(sheet, line, "TAP_RATIO", row, "1")
        if not tap:
            sheet.fault(line, "TAP_RATIO", "a tap ratio of 0; leave it empty where there is none")
        reactance = _number(sheet, line, "REACTANCE", row) * (tap or 1)
        limits = [_limit(sheet, line, column, row) for column in ("LIMIT_MW", "EMERGENCY_MW")]
        branches.append(Branch(name, start, end, reactance, *limits))
        lines.append(line)
    return branches, lines


def read_contingencies(
    path: Path, branches: Sequence[Branch], faults: List[Fault]
) -> Tuple[List[Contingency], List[int]]:
    """The contingencies of a file, in the order in which they come, and the first line of each."""
    sheet = Sheet(path, CONTINGENCIES, faults)
    if len(sheet.at) < len(CONTINGENCIES):
        return [], []
    known = {branch.name for branch in branches}
    out: Dict[str, List[str]] = {}
    lines: List[int] = []
    for line, row in sheet.rows():
        name, branch = row[sheet.at["CONTINGENCY_ID"]], row[sheet.at["BRANCH_ID"]]
        sheet.name_in(line, "CONTINGENCY_ID", name)
        if name not in out:
            lines.append(line)
        if branch not in known and known:
            sheet.fault(line, "BRANCH_ID", f"no branch {branch!r}")
        elif branch in out.get(name, ()):
            sheet.fault(line, "BRANCH_ID", f"{branch} occurs twice in this contingency")
        out.setdefault(name, []).append(branch)
    return [Contingency(name, taken) for name, taken in out.items()], lines


def read_network(branches: Path, contingencies: Optional[Path]) -> Network:
    """A network's files. Every fault is raised."""
    faults: List[Fault] = []
    rows, branch_lines = read_branches(branches, faults)
    outages, outage_lines = read_contingencies(contingencies, rows, faults) if contingencies else ([], [])
    if faults:
        raise Faults(faults)
    return Network(rows, outages, branch_lines, outage_lines)


def placed(unsolved: Unsolved, network: Network, branches: Path, contingencies: Optional[Path]) -> Faults:
    """A network's problems as faults of its files."""
    places: Dict[str, Tuple[str, List[int]]] = {
        "branches": (str(branches), network.branch_lines),
        "contingencies": (str(contingencies), network.contingency_lines),
    }
    faults = []
    for table, row, column, text in unsolved.problems:
        name, lines = places.get(table, ("--slack", []))
        faults.append(Fault(name, lines[row] if row < len(lines) else 0, column, text))
    return Faults(faults)
