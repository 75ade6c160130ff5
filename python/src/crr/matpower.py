"""MATPOWER case files as networks: the tables mpc.bus and mpc.branch of a file of version 2.

Read: of a bus its number and type, of a branch its buses, reactance, ratings A and C, tap ratio and status.
Rating A is the limit in MW, in both directions, and 0 there means none; rating C, where it is not 0, is the
limit after an outage. A tap ratio of 0 is 1. Branches out of service and isolated buses are left out. Phase
shifts change flows and no shift factor.

A file is read, not run: one that works its tables out is a fault.
"""

from __future__ import annotations

import re
from fractions import Fraction
from pathlib import Path
from typing import Dict, List, NamedTuple, Optional, Sequence, Tuple

from .branches_csv import NUMBER, Network, parallel_name
from .decimals import decimal, whole
from .faults import Fault, brief, raise_any
from .interface import LIMIT
from .network import Branch
from .sheet import unread

_BUS, _TYPE = 0, 1  # columns of mpc.bus
_FROM, _TO, _X, _RATE_A, _RATE_C, _RATIO, _STATUS = 0, 1, 3, 5, 7, 8, 10  # of mpc.branch
_REFERENCE, _ISOLATED = 3, 4
_COLUMNS = {
    "bus": {_BUS: "BUS_I", _TYPE: "BUS_TYPE"},
    "branch": {
        _FROM: "F_BUS",
        _TO: "T_BUS",
        _X: "BR_X",
        _RATE_A: "RATE_A",
        _RATE_C: "RATE_C",
        _RATIO: "TAP",
        _STATUS: "BR_STATUS",
    },
}
_TABLE = re.compile(r"\bmpc\.(bus|branch)\s*=\s*\[([^\]]*)\]")
_WORKED_OUT = re.compile(r"\bmpc\.(bus|branch)\s*\(|\bmpc\.(bus|branch)\s*=(?!\s*\[)")
Row = Tuple[int, List[str]]  # the line, and the fields


class Matpower(NamedTuple):
    """A case file's network, its reference bus, and how many branches are out of service."""

    network: Network
    reference: Optional[str]
    out_of_service: int


class _Reading:
    """A file while it is read: its name and every fault found."""

    def __init__(self, path: Path) -> None:
        self.name = str(path)
        self.faults: List[Fault] = []

    def fault(self, line: int, column: str, text: str, refusal: int = 0) -> None:
        self.faults.append(Fault(self.name, line, column, text, refusal))

    def number(self, table: str, row: Row, at: int) -> Fraction:
        """A field as an exact number; one that is none is a fault, and gives 1."""
        line, fields = row
        if NUMBER.fullmatch(fields[at]):
            return Fraction(fields[at])
        self.fault(line, _COLUMNS[table][at], f"{brief(fields[at])!r} is not a number")
        return Fraction(1)

    def limit(self, row: Row, at: int) -> Optional[int]:
        """A rating in thousandths of a MW; none where it is 0."""
        rating = self.number("branch", row, at) * 10**LIMIT.places
        text = row[1][at]
        if rating.denominator != 1:
            self.fault(row[0], _COLUMNS["branch"][at], f"{text} has more than {LIMIT.places} decimals")
        elif not LIMIT.low <= rating <= LIMIT.high:
            low, high = decimal(LIMIT.low, LIMIT.places), decimal(LIMIT.high, LIMIT.places)
            self.fault(
                row[0], _COLUMNS["branch"][at], f"{text} is outside {low} to {high}", LIMIT.refusal
            )
        return int(rating) or None


def _plain(text: str) -> str:
    """The text without comments and continuations, line for line: % to a line's end, and %{ to %}."""
    lines, deep = [], 0
    for line in text.replace("\r\n", "\n").replace("\r", "\n").split("\n"):
        mark = line.strip()
        deep += mark == "%{"
        lines.append("" if deep else re.sub(r"'[^'\n]*'|%.*|\.\.\..*", _kept, line))
        deep -= mark == "%}" and deep > 0
    return "\n".join(lines)


def _kept(match: "re.Match[str]") -> str:
    return "''" if match[0].startswith("'") else ""  # what is quoted is of no use either


def _rows(reading: _Reading, text: str, table: str) -> List[Row]:
    """A table's rows that have the fields which are read."""
    found = next((match for match in _TABLE.finditer(text) if match[1] == table), None)
    if found is None:
        reading.fault(0, "", f"no table mpc.{table} = [ .. ] of numbers")
        return []
    rows, need = [], max(_COLUMNS[table]) + 1
    first = text.count("\n", 0, found.start(2)) + 1
    for line, part in enumerate(found[2].split("\n"), start=first):
        for piece in part.split(";"):
            fields = piece.replace(",", " ").split()
            if len(fields) >= need:
                rows.append((line, fields))
            elif fields:
                reading.fault(line, f"mpc.{table}", f"{len(fields)} fields; at least {need} are needed")
    return rows


def _buses(reading: _Reading, rows: Sequence[Row]) -> Dict[str, int]:
    """The type of each bus."""
    types: Dict[str, int] = {}
    for row in rows:
        bus = row[1][_BUS]
        if bus in types:
            reading.fault(row[0], "BUS_I", f"bus {bus} occurs twice")
        types[bus] = int(reading.number("bus", row, _TYPE))
    return types


def _branch(
    reading: _Reading, row: Row, count: Dict[Tuple[str, str], int], unlimited: Optional[int]
) -> Branch:
    start, end = row[1][_FROM], row[1][_TO]
    tap = reading.number("branch", row, _RATIO) or 1
    reactance = reading.number("branch", row, _X) * tap
    limit, emergency = (reading.limit(row, at) for at in (_RATE_A, _RATE_C))
    return Branch(parallel_name((start, end), count), start, end, reactance, limit or unlimited, emergency)


def read_case(path: Path, unlimited: Optional[int] = None) -> Matpower:
    """The network of a case file. `unlimited` is the limit, in thousandths of a MW, of branches whose rating
    is 0; without it they are not monitored. Raises `Faults`."""
    reading = _Reading(path)
    try:
        text = _plain(path.read_bytes().decode("utf-8-sig", "replace"))
    except OSError as error:
        reading.fault(0, "", unread(path, error, reading.name))
        text = ""
    raise_any(reading.faults)
    for match in _WORKED_OUT.finditer(text):
        line, column = text.count("\n", 0, match.start()) + 1, f"mpc.{match[1] or match[2]}"
        reading.fault(line, column, "worked out here: run the file and store the case by savecase")
    raise_any(reading.faults)
    types = _buses(reading, _rows(reading, text, "bus"))
    branches, lines, out_of_service = [], [], 0
    count: Dict[Tuple[str, str], int] = {}
    for row in _rows(reading, text, "branch"):
        ends = [row[1][at] for at in (_FROM, _TO)]
        for at, bus in zip((_FROM, _TO), ends):
            if bus not in types and types:
                reading.fault(row[0], _COLUMNS["branch"][at], f"no bus {brief(bus)!r} in mpc.bus")
        branch = _branch(reading, row, count, unlimited)
        if reading.number("branch", row, _STATUS) and _ISOLATED not in [types.get(bus) for bus in ends]:
            branches.append(branch)
            lines.append(row[0])
        else:
            out_of_service += 1
    raise_any(reading.faults)
    reference = next((bus for bus, kind in types.items() if kind == _REFERENCE), None)
    return Matpower(Network(branches, [], lines, []), reference, out_of_service)


def unlimited_limit(text: str) -> int:
    """A limit in MW as it is given for branches without one."""
    limit = whole(text, LIMIT.places)
    if not LIMIT.low < limit <= LIMIT.high:
        raise ValueError(f"{text} is no limit above 0 and up to {decimal(LIMIT.high, LIMIT.places)} MW")
    return limit
