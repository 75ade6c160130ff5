"""The file of demands that a balance is shared by: COORDINATOR,MEASURED_DEMAND."""

from __future__ import annotations

import re
from pathlib import Path
from typing import Dict, List, NamedTuple

from .faults import Fault
from .interface import DEMAND, MAX_COORDINATORS
from .sheet import Sheet

_DECIMALS = re.compile(r"[+-]?[0-9]*\.([0-9]*?)0*")  # those that count
_MOST_DECIMALS = 18  # with more, no demand of a unit is in range
DEMANDS = ("COORDINATOR", "MEASURED_DEMAND")


class Demands(NamedTuple):
    """Coordinators by name, their demands as they stand in the file, and the same as whole numbers of one
    unit."""

    names: List[str]
    texts: List[str]
    units: List[int]


def read_demands(path: Path, faults: List[Fault]) -> Demands:
    """A file COORDINATOR,MEASURED_DEMAND. Proportions alone count, so demands of decimals are taken in units
    of the last decimal that any of them has."""
    sheet = Sheet(path, DEMANDS, faults)
    if len(sheet.at) < len(DEMANDS):
        return Demands([], [], [])
    name_at, demand_at = sheet.at["COORDINATOR"], sheet.at["MEASURED_DEMAND"]
    line, sound = 1, len(faults)
    rows = list(sheet.rows())
    texts = [row[demand_at] for _, row in rows]
    decimals = [match[1] for match in map(_DECIMALS.fullmatch, texts) if match]
    unit = DEMAND._replace(places=min(_MOST_DECIMALS, max(map(len, decimals), default=0)))
    names: Dict[str, int] = {}
    units: List[int] = []
    for line, row in rows:
        sheet.new_name(line, "COORDINATOR", row[name_at], names)
        units.append(sheet.figure(line, demand_at, row[demand_at], unit))
        if len(units) == MAX_COORDINATORS + 1:
            sheet.fault(line, "COORDINATOR", f"more than {MAX_COORDINATORS} coordinators", 26)
    if not rows:
        sheet.fault(line, "COORDINATOR", "no coordinator", 26)
    elif not any(units) and len(faults) == sound:
        sheet.fault(line, "MEASURED_DEMAND", "the demands total 0", 27)
    # those of rows that can't be read were found first
    faults[sound:] = sorted(faults[sound:], key=lambda fault: fault.line)
    return Demands(list(names), texts, units)
