"""The commands that need no case: hours, share."""

from __future__ import annotations

import argparse
import re
from pathlib import Path
from typing import Dict, List, Tuple

from .command import PASSES, Answer, argument, command, counted, objects, reads
from .dates import hours_a_day, month_hours
from .decimals import whole
from .demands_csv import DEMANDS, read_demands
from .faults import Fault, Faults, raise_any
from .interface import BALANCE, FIRST_YEAR, LAST_YEAR
from .native import Refused
from .results import dollars
from .shares import share_balance
from .to_csv import csv_text

ON_PEAK = ("MONTH", "ON_PEAK_DAYS", "ON_PEAK_HOURS")
Month = Tuple[int, int]  # the year, and 1 to 12
_MONTHS = re.compile(r"([0-9]{4})(?:-([0-9]{2}))?")


def _months(text: str) -> Tuple[Month, Month]:
    """The first and the last month of a year, a month, or a span of them."""
    start, _, end = text.partition("..")
    matches = [_MONTHS.fullmatch(part) for part in (start, end or start)]
    if not all(matches) or text.endswith("."):
        raise argparse.ArgumentTypeError(
            f"{text!r} is neither a year, YYYY, nor a month, YYYY-MM, nor two of these as FROM..TO"
        )
    (first_year, first_month), (last_year, last_month) = [match.groups() for match in matches if match]
    first, last = (int(first_year), int(first_month or 1)), (int(last_year), int(last_month or 12))
    if last < first:
        raise argparse.ArgumentTypeError(f"{end} comes before {start}")
    return first, last


@command(
    "hours",
    "the on-peak days and hours of months, 2010 to 2037",
    argument("months", type=_months, metavar="MONTHS", help="YYYY, YYYY-MM, or FROM..TO"),
)
def hours(months: Tuple[Month, Month]) -> Answer:
    """The on-peak days and hours of each month, from the first to the last."""
    first, last = months
    for named in (first, last):
        _on_peak(*named)  # refused as it was written, such as month 13
    numbers = range(12 * first[0] + first[1] - 1, 12 * last[0] + last[1])
    rows = [_on_peak(number // 12, number % 12 + 1) for number in numbers]
    days, total = sum(row[1] for row in rows), sum(row[2] for row in rows)
    of_all = f"{counted(days, 'on-peak day')}, {counted(total, 'on-peak hour')}"
    data: Dict[str, object] = {"months": objects(ON_PEAK, rows), "on_peak_days": days, "on_peak_hours": total}
    return Answer(PASSES, csv_text(ON_PEAK, rows), data, f"{counted(len(rows), 'month')}: {of_all}\n")


def _on_peak(year: int, month: int) -> Tuple[str, int, int]:
    name = f"{year:04}-{month:02}"
    try:
        on_peak = month_hours(year, month)
    except Refused as refused:
        text = f"no month of {FIRST_YEAR} to {LAST_YEAR}"
        raise Faults([Fault(name, 0, "", text, refused.number)]) from None
    return name, on_peak // hours_a_day(), on_peak


def _balance(text: str, faults: List[Fault]) -> int:
    """Dollars as cents; a fault is noted and gives 0."""
    try:
        cents = whole(text, BALANCE.places)
    except ValueError as error:
        faults.append(Fault("BALANCE", 0, "", str(error)))
        return 0
    if not BALANCE.low <= cents <= BALANCE.high:
        outside = f"{text} is outside {dollars(BALANCE.low)} to {dollars(BALANCE.high)}"
        faults.append(Fault("BALANCE", 0, "", outside, BALANCE.refusal))
    return cents


SHARES = (*DEMANDS, "SHARE")


@command(
    "share",
    "a balance shared among coordinators by their demands, to the cent",
    argument("balance", metavar="BALANCE", help="dollars, such as 1234.56 or -1234.56"),
    reads("demands", "a CSV file COORDINATOR,MEASURED_DEMAND"),
)
def share(balance: str, demands: Path) -> Answer:
    """Shares a balance of dollars among the coordinators of a file by their demands."""
    faults: List[Fault] = []
    cents, asked = _balance(balance, faults), read_demands(demands, faults)
    raise_any(faults)
    shares = share_balance(cents, asked.units)
    rows = [(name, text, dollars(cell)) for name, text, cell in zip(asked.names, asked.texts, shares)]
    note = f"{counted(len(rows), 'coordinator')}: sum {dollars(sum(shares))}\n"
    data: Dict[str, object] = {"balance": dollars(cents), "shares": objects(SHARES, rows)}
    return Answer(PASSES, csv_text(SHARES, rows), data, note)
