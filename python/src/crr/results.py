"""What settling came to, as CSV: hour by hour, holder by month, contract by contract. The sums of the three
are one figure."""

from __future__ import annotations

from fractions import Fraction
from typing import Dict, List, Optional, Sequence, Tuple

from .case import Names, Time, hour_name
from .clock import Coverage, coverage
from .command import objects
from .costs import Costs, most_short
from .decimals import decimal
from .files import Contract
from .hours import Settled
from .interface import HUB_PLACES, HUB_WEIGHT, MCC_PLACES, PART_PLACES
from .settlement import HubMcc
from .to_csv import csv_text
from .words import HEDGE_TYPES, PROCESSES, TIMES_OF_USE

CENT_PLACES = 2  # decimals of a dollar


def dollars(cents: int) -> str:
    """1250 cents are '12.50'."""
    return decimal(cents, CENT_PLACES)


def exact_dollars(cents: Fraction) -> str:
    """An exact total of cents in dollars, with every one of its ten decimals."""
    return decimal(int(cents * 10**PART_PLACES), CENT_PLACES + PART_PLACES)


def mcc_dollars(mcc: HubMcc) -> str:
    """A hub's MCC in dollars per MWh, with every one of its twelve decimals."""
    return decimal(mcc.quotient * HUB_WEIGHT + mcc.remainder, CENT_PLACES + MCC_PLACES + HUB_PLACES)


def holder_months(settled: Settled, book: Sequence[Contract]) -> Dict[Tuple[int, str], int]:
    """The cents of each holder in each month, by holder and month."""
    sums: Dict[Tuple[int, str], int] = {}
    for month, cents in settled.months.items():
        for contract, amount in zip(book, cents):
            sums[contract.holder, month] = sums.get((contract.holder, month), 0) + amount
    return dict(sorted(sums.items()))


def settled_months(settled: Settled, times: Sequence[Time]) -> Dict[str, Coverage]:
    """How many hours of each month were settled, of those that there are."""
    return coverage(times, (hour.period for hour in settled.hours))


def holder_rows(
    settled: Settled, names: Names, book: Sequence[Contract], times: Sequence[Time]
) -> List[Tuple[object, ...]]:
    """A row for each holder and month; a month that is not whole is marked."""
    months = settled_months(settled, times)
    marks = {month: found.mark for month, found in months.items()}
    return [
        (names.holder(holder), month, dollars(cents), marks.get(month, ""))
        for (holder, month), cents in holder_months(settled, book).items()
    ]


def holder_sums(settled: Settled, book: Sequence[Contract]) -> Dict[int, int]:
    """The cents of each holder over all hours."""
    sums: Dict[int, int] = {}
    for (holder, _), cents in holder_months(settled, book).items():
        sums[holder] = sums.get(holder, 0) + cents
    return sums


def hour_rows(
    settled: Settled, times: Sequence[Time], costs: Optional[Costs] = None
) -> List[Tuple[object, ...]]:
    """A row for each hour: its time, the rounded cents added, and the exact total; where they are asked for,
    the rent and the shortfall in a process."""
    rows: List[Tuple[object, ...]] = [
        (day, hour or "", TIMES_OF_USE[total.period], dollars(total.sum), exact_dollars(total.exact))
        for (day, hour), total in zip(times, settled.hours)
    ]
    if not costs:
        return rows
    process = PROCESSES[costs.process]
    figures = [(exact_dollars(hour.rent.exact), exact_dollars(hour.shortfall.exact)) for hour in costs.hours]
    return [(*row, process, *of_hour) for row, of_hour in zip(rows, figures)]


def month_rows(
    costs: Costs, times: Sequence[Time], months: Dict[str, Coverage]
) -> List[Tuple[object, ...]]:
    """A row for each month: its hours, their exact total, rent and shortfall, and how many fall short; a
    month that is not whole is marked."""
    process = PROCESSES[costs.process]
    marks = {month: found.mark for month, found in months.items()}
    return [
        (
            month,
            len(of_month.hours),
            exact_dollars(of_month.payment),
            process,
            exact_dollars(of_month.rent),
            exact_dollars(of_month.shortfall),
            of_month.short,
            marks.get(month, ""),
        )
        for month, of_month in costs.by_month(times).items()
    ]


def cost_data(costs: Costs, times: Sequence[Time], months: Dict[str, Coverage]) -> Dict[str, object]:
    """Rent and shortfall for a script: of all hours, and by month."""
    return {
        "process": PROCESSES[costs.process],
        "rent": exact_dollars(costs.rent),
        "shortfall": exact_dollars(costs.shortfall),
        "hours_short": costs.short,
        "by_month": objects(MONTHS, month_rows(costs, times, months)),
    }


def costs_words(costs: Costs, times: Sequence[Time]) -> str:
    """Rent and shortfall in words: of each month, where there are several, and of all hours."""
    process, months = PROCESSES[costs.process], costs.by_month(times)
    each = [(f"{month} {process}", of_month) for month, of_month in months.items()] if len(months) > 1 else []
    said = [
        f"{name}: rent {exact_dollars(of_all.rent)}, shortfall {exact_dollars(of_all.shortfall)}"
        for name, of_all in [*each, (process, costs)]
    ]
    return "\n".join(said) + f"; {_short_words(costs, times)}\n"


def _short_words(costs: Costs, times: Sequence[Time]) -> str:
    """How many hours fall short, and which the most."""
    if not costs.short:
        return "no hour falls short"
    (day, hour), most = most_short(costs, times)[0]
    by = f"by {exact_dollars(most.shortfall.exact)}"
    if not hour:
        return f"the hour falls short {by}"
    fall = f"{costs.short:,} hours fall short, the most" if costs.short > 1 else "1 hour falls short,"
    return f"{fall} {hour_name(day, hour)} {by}"


HOURS = ("OPR_DT", "OPR_HR", "TIME_OF_USE", "SUM", "EXACT_TOTAL")
COSTS = ("PROCESS", "RENT", "SHORTFALL")
INCOMPLETE = "INCOMPLETE"  # how many hours of how many, where a month is not whole
MONTHS = ("MONTH", "HOURS", "EXACT_TOTAL", *COSTS, "HOURS_SHORT", INCOMPLETE)
MONTHS_FILE = "months.csv"
HOLDERS = ("OWNER", "MONTH", "AMOUNT", INCOMPLETE)
CONTRACTS = ("CRR_ID", "OWNER", "HEDGE_TYPE", "TIME_OF_USE", "AMOUNT")


_HEADINGS = {
    "hours.csv": (HOURS, (*HOURS, *COSTS)),
    "holders.csv": (HOLDERS, HOLDERS[:-1]),  # as they are, and as they were
    "contracts.csv": (CONTRACTS,),
    MONTHS_FILE: (MONTHS, MONTHS[:-1]),
}


def hour_heading(costs: Optional[Costs]) -> Tuple[str, ...]:
    """The heading of hours.csv."""
    return (*HOURS, *COSTS) if costs else HOURS


def is_result(name: str, data: bytes) -> bool:
    """Whether a file has the heading of the result file of its name."""
    heading = data.split(b"\n", 1)[0]
    return any(heading == ",".join(one).encode() for one in _HEADINGS.get(name, ()))


def result_files(
    settled: Settled,
    names: Names,
    book: Sequence[Contract],
    times: Sequence[Time],
    costs: Optional[Costs] = None,
) -> Dict[str, str]:
    """hours.csv, holders.csv and contracts.csv, and with costs months.csv. Amounts are dollars; positive is
    paid, negative charged."""
    holders = holder_rows(settled, names, book, times)
    contracts = [
        (
            crr_id,
            names.holder(contract.holder),
            HEDGE_TYPES[contract.kind],
            TIMES_OF_USE[contract.period],
            dollars(cents),
        )
        for crr_id, contract, cents in zip(names.contracts, book, settled.cents or [0] * len(book))
    ]
    files = {
        "hours.csv": csv_text(hour_heading(costs), hour_rows(settled, times, costs)),
        "holders.csv": csv_text(HOLDERS, holders),
        "contracts.csv": csv_text(CONTRACTS, contracts),
    }
    if not costs:
        return files
    months = month_rows(costs, times, settled_months(settled, times))
    return {**files, MONTHS_FILE: csv_text(MONTHS, months)}
