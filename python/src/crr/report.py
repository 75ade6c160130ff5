"""The command `crr report`: gathers what the page shows and writes it."""

from __future__ import annotations

from collections import Counter
from dataclasses import replace
from datetime import date
from fractions import Fraction
from pathlib import Path
from typing import Dict, Iterable, List, NamedTuple, Optional, Sequence, Tuple, cast

from .bar import Bar
from .case import Case, PricedHour, Time, hour_name
from .clock import Coverage, coverage
from .command import (
    FOLDER,
    FORCE,
    MEMORY,
    MONTHLY_RENT,
    PASSES,
    Answer,
    command,
    counted,
    writes,
)
from .commands import cut_rows, verdicts
from .costs import Costs, hour_costs, most_short
from .exposure import Shortfall
from .exposures import costs_alone, exposures
from .feasibility import Flows, excesses, released_percent, worst
from .hours import PriceFile, Settled
from .inputs import Input, input_of
from .large import flows_of
from .library import library_path
from .opening import check_periods, counts_words, opened, settled, write_beside
from .page import MOST_HOURS, Figures, HourRow, Month, is_page, page
from .reading import READING, Reading
from .results import dollars, exact_dollars, holder_sums
from .settlement import HourTotal
from .streams import readable
from .version import __version__
from .words import Period, Process

FULL_DAY = 23  # hours of the shortest whole day


def _inputs(case: Case, hours: Sequence[PriceFile]) -> List[Input]:
    """The files that were read. The price files of many hours are taken as one, in the order of hours."""
    if case.is_csv or not hours:
        return case.inputs
    name = "prices.bin" if len(hours) == 1 else f"prices/, {len(hours):,} files one behind the other"
    return [*case.inputs, input_of(name, [cast(bytes, hour.file) for hour in hours])]


def _library() -> Input:
    """The library that answered, with the package's version."""
    return input_of(f"libcrr.so, version {__version__}", [library_path().read_bytes()])


class _Hour(NamedTuple):
    """What the page adds up: the day, what the library settled, and what the hour costs."""

    day: str
    total: HourTotal
    cost: Shortfall


def _month(name: str, hours: Sequence[_Hour], months: Sequence[Coverage]) -> Month:
    exact = sum((hour.total.exact for hour in hours), Fraction(0))
    rent = sum((hour.cost.rent.exact for hour in hours), Fraction(0))
    shortfall = sum((hour.cost.shortfall.exact for hour in hours), Fraction(0))
    days = len({hour.day for hour in hours if hour.day})
    paid = dollars(sum(hour.total.sum for hour in hours))
    found = tuple(sum(hour.total.period == period for hour in hours) for period in Period)
    there = tuple(_sum(month.there[period] for month in months) for period in Period)
    whole = all(month.whole for month in months)
    counts = (name, days, len(hours), found, there, whole)
    return Month(*counts, paid, *map(exact_dollars, (exact, rent, shortfall)))


def _sum(counts: Iterable[Optional[int]]) -> Optional[int]:
    """The counts added; none where one is not known, or there is none."""
    known = list(counts)
    return None if None in known or not known else sum(cast(List[int], known))


def _months(hours: Sequence[_Hour]) -> List[Month]:
    """Each month's figures, and last those of all hours; none where there is no hour."""
    months: Dict[str, List[_Hour]] = {}
    for hour in hours:
        months.setdefault(hour.day[:7], []).append(hour)
    found = coverage([(hour.day, 0) for hour in hours], [hour.total.period for hour in hours])
    return [_month(name, months[name], [found[name]]) for name in sorted(months) if name] + (
        [_month("all", hours, list(found.values()))] if hours else []
    )


def covered(times: Sequence[Time]) -> str:
    """Which days the prices are of, in words."""
    hours = Counter(day for day, _ in times if day)
    if not hours:
        return "One hour of prices, without a date." if times else "No prices, so nothing is settled."
    first, last = min(hours), max(hours)
    said = f"{counted(len(hours), 'day')} covered: {first}" + (f" to {last}" if last != first else "")
    gaps = (date.fromisoformat(last) - date.fromisoformat(first)).days + 1 - len(hours)
    short = sum(count < FULL_DAY for count in hours.values())
    said += f"; {counted(gaps, 'day')} between them without prices" if gaps else ""
    return said + (f"; {counted(short, 'day')} of fewer than {FULL_DAY} hours" if short else "") + "."


def _hours(costs: Costs, times: Sequence[Time]) -> List[HourRow]:
    """The hours of the largest shortfalls."""
    return [
        HourRow(
            hour_name(day, hour) if hour else "the hour",
            *(exact_dollars(figure.exact) for figure in (cost.payment, cost.rent, cost.shortfall)),
        )
        for (day, hour), cost in most_short(costs, times)[:MOST_HOURS]
    ]


def _flows(case: Case, period: int) -> Flows:
    """The flow on each constraint, and how many contracts it is of."""
    return Flows(flows_of(case, period), sum(contract.period == period for contract in case.book))


def _read_hours(case: Case) -> List[Tuple[PriceFile, PricedHour]]:
    """The hours, read once: what is settled is what is hashed. Those of a large case are of its CSV file."""
    if case.fits:
        return case.read_hours()
    return [(PriceFile(hour.day, hour.hour, b""), hour) for hour in case.priced_hours()]


def figures(
    folder: Path,
    case: Case,
    hours: Sequence[Tuple[PriceFile, PricedHour]],
    result: Settled,
    process: int = Process.MONTHLY,
) -> Figures:
    """All that the page shows of a case."""
    limits, answers = case.limits, verdicts(case)
    percents = [released_percent(process) for process in Process]
    flows = [_flows(case, period) for period in Period]
    over = {
        (period, process): excesses(limits, flows[period].flows, percents[process])
        for period, process in answers
    }
    costs = hour_costs(replace(case, hours=[hour for _, hour in hours]), result.hours, process)
    totals = [
        _Hour(day, total, cost) for (day, _), total, cost in zip(case.times, result.hours, costs.hours)
    ]
    failing = [line for line, verdict in answers.items() if not verdict.passed]
    sums = holder_sums(result, case.book)
    return Figures(
        title=readable(folder.resolve().name),
        summary=f"{counts_words(case)}.",
        covered=covered(case.times),
        constraints=case.names.constraints,
        limits=limits,
        percents=percents,
        verdicts=answers,
        excesses=over,
        worst={line: worst(verdict, over[line]) for line, verdict in answers.items() if not verdict.passed},
        cuts=cut_rows(case, answers),
        exposures=exposures(case, failing) if case.fits else {},
        alone={line: costs_alone(case, line, answers[line].overloaded) for line in failing if case.fits},
        flows=flows,
        holders=[(case.names.holder(holder), cents) for holder, cents in sums.items()],
        process=process,
        months=_months(totals),
        hours=_hours(costs, case.times),
        short=costs.short,
        inputs=_inputs(case, [file for file, _ in hours]),
        library=_library(),
    )


_TEXT = "one HTML page: verdicts, what the book can cost, loading of constraints, payments and rent"


@command(
    "report",
    _TEXT,
    FOLDER,
    *READING,
    MONTHLY_RENT,
    writes("the HTML file; without it, report.html in the folder"),
    FORCE,
    MEMORY,
)
def report(
    folder: Path, out: Optional[Path], reading: Reading, process: int, force: bool, memory: int
) -> Answer:
    """Writes the page, over one of before; a book that fails is what it tells and no fault of it."""
    case = opened(folder, reading, any_size=True, memory=memory)
    target = out or folder / "report.html"
    hours = _read_hours(case)
    if not reading.as_given:
        check_periods(case, [hour.period for _, hour in hours])
    taken = replace(case, hours=[file for file, _ in hours]) if case.fits else case
    result = settled(taken, 1, Bar("settle"))
    text = page(figures(folder, case, hours, result, process))
    write_beside(folder, target, text.encode(), force, is_page)
    return Answer(PASSES, f"{target} written\n", {"out": str(target)})
