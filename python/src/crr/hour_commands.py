"""The commands on hours by name: mcc, statement."""

from __future__ import annotations

import argparse
import re
from pathlib import Path
from typing import Dict, List, Optional, Sequence, Tuple, cast

from .case import PricedHour, Time, hour_name
from .command import FOLDER, PASSES, Answer, argument, command, counted, objects
from .days import is_date
from .decimals import decimal
from .faults import Fault, Faults, raise_any
from .interface import MCC_PLACES
from .opening import judged_hours, opened, rounded_data, rounded_words
from .reading import READING, Reading
from .results import CENT_PLACES, dollars, exact_dollars
from .settlement import find_mcc, settle_hour
from .terms import on_day
from .to_csv import book_row, csv_text
from .words import TIMES_OF_USE

_TIME = re.compile(r"(\S{10})[ T/]?(?:HE)?([0-9]{1,2})", re.IGNORECASE)


def a_time(text: str) -> Time:
    """An hour of the command line: '2026-07-01 HE08', or without the blank or the HE."""
    match = _TIME.fullmatch(text)
    if not match or not is_date(match[1]) or not 1 <= int(match[2]) <= 25:
        raise argparse.ArgumentTypeError(f"{text!r} is no hour, such as '2026-07-01 HE08' or 2026-07-01/8")
    return match[1], int(match[2])


HOUR = argument(
    "time",
    nargs="?",
    type=a_time,
    metavar="HOUR",
    help="such as '2026-07-01 HE08' or 2026-07-01/8; without it, the only one",
)


def time_words(hour: PricedHour) -> str:
    """2026-07-01 HE08 ON."""
    time = hour_name(hour.day, hour.hour) if hour.hour else "the hour"
    return f"{time} {TIMES_OF_USE[hour.period]}"


def hour_of(hours: Sequence[PricedHour], time: Optional[Time]) -> PricedHour:
    """The hour that is asked for, or the only one; a fault where there is no such hour."""
    found = [hour for hour in hours if time in (None, (hour.day, hour.hour))]
    if len(found) == 1:
        return found[0]
    if not hours:
        raise Faults([Fault("", 0, "", "no prices, so there is no hour")])
    first, last = (hour_name(hour.day, hour.hour) if hour.hour else "" for hour in (hours[0], hours[-1]))
    there = f"the prices have {counted(len(hours), 'hour')}, "
    there += (first + (f" to {last}" if last != first else "")) or "without a day"
    raise Faults([Fault("HOUR", 0, "", f"{there}{f', and not {hour_name(*time)}' if time else ': which?'}")])


MCC = ("OPR_DT", "OPR_HR", "TIME_OF_USE", "NODE_ID", "MCC")


def _nodes(names: Sequence[str], asked: Optional[List[str]]) -> List[int]:
    """The numbers of the nodes asked for, or of all."""
    numbers = {name: number for number, name in enumerate(names)}
    unknown = [name for name in asked or () if name not in numbers]
    raise_any([Fault("--node", 0, "", f"no node {name!r}", 11) for name in unknown])
    return [numbers[name] for name in asked] if asked else list(range(len(names)))


@command(
    "mcc",
    "the marginal cost of congestion of each node, hour by hour, in dollars per MWh",
    FOLDER,
    argument(
        "--hour",
        type=a_time,
        metavar="HOUR",
        help="such as '2026-07-01 HE08' or 2026-07-01/8; without it, every hour",
    ),
    argument("--node", action="append", metavar="NODE", help="this node alone; may be said again for more"),
    *READING,
)
def mcc(folder: Path, hour: Optional[Time], node: Optional[List[str]], reading: Reading) -> Answer:
    """The MCC of each node in each hour."""
    case = opened(folder, reading, terms=True)
    nodes, grid = _nodes(case.names.nodes, node), case.grid
    hours = judged_hours(case, reading)
    hours = [hour_of(hours, hour)] if hour else hours
    rows = []
    for each in hours:
        cells = find_mcc(grid, each.prices)
        at = (each.day, each.hour or "", TIMES_OF_USE[each.period])
        rows += [(*at, case.names.nodes[n], decimal(cells[n], CENT_PLACES + MCC_PLACES)) for n in nodes]
    note = f"{counted(len(nodes), 'node')}, {counted(len(hours), 'hour')}{rounded_words(case)}\n"
    data: Dict[str, object] = {"mcc": objects(MCC, rows), **rounded_data(case)}
    return Answer(PASSES, csv_text(MCC, rows), data, note)


STATEMENT = (
    *("CRR_ID", "OWNER", "HEDGE_TYPE", "TIME_OF_USE", "SOURCE", "SINK", "MW"),
    *("AMOUNT", "PRICED", "CONSTRAINTS"),
)


def members(bits: int, names: Sequence[str]) -> List[str]:
    """The names of a set's members: bit k is the k-th."""
    return [name for k, name in enumerate(names) if bits >> k & 1]


@command(
    "statement",
    "an hour's statement by names: what each contract of its period is paid, and the constraints that priced "
    "it",
    FOLDER,
    HOUR,
    *READING,
)
def statement(folder: Path, time: Optional[Time], reading: Reading) -> Answer:
    """An hour's statement, contract by contract, of those in force on its day."""
    case = opened(folder, reading, terms=True)
    hour = hour_of(judged_hours(case, reading), time)
    case = on_day(case, hour.day)
    names = case.names
    settled = settle_hour(case.grid, case.book_file(), hour.period, hour.prices)
    rows: List[Tuple[object, ...]] = []
    for number, contract in enumerate(case.book):
        if contract.period == hour.period:
            priced = members(settled.priced[number], names.constraints)
            terms = book_row(names, names.contracts[number], contract)
            rows.append((*terms, dollars(settled.cents[number]), len(priced), priced))
    total = settled.total
    figures = {"sum": dollars(total.sum), "exact_total": exact_dollars(total.exact)}
    note = f"{time_words(hour)}: {counted(len(rows), 'contract')}, sum {figures['sum']}, "
    note += f"exact total {figures['exact_total']}{rounded_words(case)}\n"
    data: Dict[str, object] = {"hour": hour_name(hour.day, hour.hour) if hour.hour else None}
    data.update(time_of_use=TIMES_OF_USE[hour.period], contracts=objects(STATEMENT, rows), **figures)
    data.update(rounded_data(case))
    text = csv_text(STATEMENT, ((*row[:-1], "; ".join(cast(List[str], row[-1]))) for row in rows))
    return Answer(PASSES, text, data, note)
