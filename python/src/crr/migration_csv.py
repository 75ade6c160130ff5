"""The two files of load migration: rows of customers that moved, and the current load of each load-serving
entity (LSE), of one period.

rows   CUSTOMER_CLASS,CUSTOMERS,MW_PER_CUSTOMER,OLD_LSE,NEW_LSE
loads  LSE,LOAD_MW

An LSE is a holder whose number is 1 to 16, by that number or by name.
"""

from __future__ import annotations

from pathlib import Path
from typing import Dict, List, NamedTuple

from .case import plain_number
from .decimals import decimal
from .faults import Fault
from .interface import CUSTOMER_LOAD, CUSTOMERS, LOAD, MAX_LSES, MAX_MIGRATION_ROWS
from .migration import net_transfers
from .sheet import Sheet

ROWS = ("CUSTOMER_CLASS", "CUSTOMERS", "MW_PER_CUSTOMER", "OLD_LSE", "NEW_LSE")
LOADS = ("LSE", "LOAD_MW")
_RANGE, _EXCEEDED = 22, 23


class Migration(NamedTuple):
    """The lists that the library takes, and the LSEs that have a load, by number. Loads of numbers between
    them are 0."""

    classes: bytes
    customers: List[int]
    rates: List[int]
    olds: List[int]
    news: List[int]
    loads: List[int]
    lses: List[int]

    @property
    def nets(self) -> List[List[int]]:
        """The net load from each LSE to each."""
        return net_transfers(len(self.loads), self.classes, self.customers, self.rates, self.olds, self.news)


class Lses:
    """LSEs by number or name, and the line of each one's load."""

    def __init__(self, holders: Dict[int, str]) -> None:
        self._names = {name: number for number, name in holders.items()}
        self.lines: Dict[int, int] = {}

    def number(self, sheet: Sheet, line: int, column: str, text: str) -> int:
        """The number of an LSE. A fault is noted and gives 0."""
        number = self._names.get(text, plain_number(text))
        if not text:
            sheet.fault(line, column, "empty")
        elif number is None:
            reason = f"no holder is called {text!r}, and it is no number from 1 to {MAX_LSES}"
            sheet.fault(line, column, reason, _RANGE)
        elif not 1 <= number <= MAX_LSES:
            lses = f"LSEs are the holders 1 to {MAX_LSES}: names.csv gives holders their numbers"
            sheet.fault(line, column, f"{text} is holder {number}, and {lses}", _RANGE)
        else:
            return number
        return 0

    def with_load(self, sheet: Sheet, line: int, column: str, text: str) -> int:
        """The number of an LSE that has a load. A fault is noted and gives 0."""
        number = self.number(sheet, line, column, text)
        if number and self.lines and number not in self.lines:
            sheet.fault(line, column, f"LSE {text} has no load", _RANGE)
            return 0
        return number


def _read_loads(sheet: Sheet, lses: Lses) -> List[int]:
    loads = [0] * MAX_LSES
    if len(sheet.at) < len(LOADS):
        return []
    lse_at, load_at = sheet.at["LSE"], sheet.at["LOAD_MW"]
    for line, row in sheet.rows():
        number = lses.number(sheet, line, "LSE", row[lse_at])
        load = sheet.figure(line, load_at, row[load_at], LOAD)
        if number in lses.lines:
            sheet.fault(line, "LSE", f"{row[lse_at]} occurs twice")
        elif number:
            lses.lines[number], loads[number - 1] = line, load
    if not lses.lines and not sheet.faults:
        sheet.fault(1, "LSE", "no LSE", _RANGE)
    return loads[: max(lses.lines, default=0)]


def _read_rows(sheet: Sheet, lses: Lses, loads: List[int]) -> Migration:
    migration = Migration(b"", [], [], [], [], loads, sorted(lses.lines))
    classes: Dict[str, int] = {}
    of_rows: List[int] = []
    if len(sheet.at) < len(ROWS):
        return migration
    class_at, customers_at, rate_at, old_at, new_at = (sheet.at[column] for column in ROWS)
    for line, row in sheet.rows():
        of_rows.append(classes.setdefault(row[class_at], len(classes)) % 256)  # of no effect
        migration.customers.append(sheet.figure(line, customers_at, row[customers_at], CUSTOMERS))
        migration.rates.append(sheet.figure(line, rate_at, row[rate_at], CUSTOMER_LOAD))
        old = lses.with_load(sheet, line, "OLD_LSE", row[old_at])
        new = lses.with_load(sheet, line, "NEW_LSE", row[new_at])
        if old and old == new:
            sheet.fault(line, "NEW_LSE", "the old and the new LSE are one", _RANGE)
        migration.olds.append(old)
        migration.news.append(new)
        if len(of_rows) == MAX_MIGRATION_ROWS + 1:
            sheet.fault(line, "CUSTOMERS", f"more than {MAX_MIGRATION_ROWS} rows", _RANGE)
    return migration._replace(classes=bytes(of_rows))


def read_migration(rows: Path, loads: Path, holders: Dict[int, str], faults: List[Fault]) -> Migration:
    """The lists of both files, for holders of these names by number. Every fault is noted, also a load that
    is less than its LSE's losses."""
    lses = Lses(holders)
    load_sheet = Sheet(loads, LOADS, faults)
    amounts = _read_loads(load_sheet, lses)
    migration = _read_rows(Sheet(rows, ROWS, faults), lses, amounts)
    if faults:
        return migration
    nets = migration.nets
    for number, line in lses.lines.items():
        losses = sum(net for net in nets[number - 1] if net > 0)
        if losses > amounts[number - 1]:
            lost, load = (decimal(megawatts, LOAD.places) for megawatts in (losses, amounts[number - 1]))
            load_sheet.fault(
                line, "LOAD_MW", f"{load} MW, and the LSE loses {lost} MW to all gainers", _EXCEEDED
            )
    return migration
