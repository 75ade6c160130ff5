"""pandas in and out: a case from four DataFrames, in MW and dollars, and back; verdicts, cuts, flows,
exposure and what hours came to, as DataFrames.

Frames have the columns of the CSV files, under any of their names, and go through the same reader: every
fault is told, by its row's label. Figures may be ints, Decimals, Fractions, texts or floats. A float is taken
where it is the float of a multiple of the unit, such as 0.6 for a factor; another is a fault, unless
`rounded` asks for the nearest multiple. Figures that come out are Decimals, with nothing lost, or floats
where they are asked for.

pandas is needed here and nowhere else in the package.
"""

from __future__ import annotations

import tempfile
from dataclasses import replace
from decimal import Decimal
from fractions import Fraction
from importlib import import_module
from pathlib import Path
from typing import Any, Dict, Iterable, List, NamedTuple, Optional, Sequence, Tuple, Union

from .book_csv import BOOK
from .case import Case
from .decimals import decimal
from .exposure import ExactCents, find_exposure
from .faults import Faults, raise_any
from .feasibility import excesses, find_cuts, find_flows, released_limit, released_percent, test_book, worst
from .frame_cells import Texts
from .from_csv import CONSTRAINTS, PRICES, load
from .hours import Settled
from .interface import FLOW_PLACES, LIMIT, PART_PLACES, QUANTITY, SHADOW_PRICE, SHIFT_FACTOR, Unit
from .sheet import column_name
from .words import HEDGE_TYPES, TIMES_OF_USE, Line, Period, Process, line_names

DataFrame = Any  # pandas' own types are known only where it is installed
Number = Union[Decimal, float]
UNITS: Dict[str, Unit] = {"LIMIT_MW": LIMIT, "MW": QUANTITY, "SHADOW_PRICE": SHADOW_PRICE}
LINES: Tuple[Line, ...] = tuple((period, process) for period in Period for process in Process)
_DOLLARS = 2  # decimals of a dollar


class Frames(NamedTuple):
    """A case's four tables."""

    constraints: DataFrame
    factors: DataFrame
    book: DataFrame
    prices: DataFrame


def _pandas() -> Any:
    return import_module("pandas")


def _texts(name: str, frame: DataFrame, need: Sequence[str], rounded: bool) -> Tuple[Texts, str]:
    """A frame's CSV text. A factor stands in every column but the node's."""
    texts = Texts(name, frame, rounded)
    columns = [column_name(column, need) for column in texts.columns]
    units = [UNITS.get(column) for column in columns]
    if name == "factors":
        units = [None if at == 0 else SHIFT_FACTOR for at in range(len(columns))]
    return texts, texts.text(frame.itertuples(index=False, name=None), units)


def _with_nodes(factors: DataFrame) -> DataFrame:
    """The factors' frame with its nodes in the first column: they stand in the index, or in any column."""
    columns = [column_name(str(column), ("NODE_ID",)) for column in factors.columns]
    if "NODE_ID" not in columns:
        return factors.rename_axis("NODE_ID").reset_index().set_index(factors.index)
    first = columns.index("NODE_ID")
    return factors.iloc[:, [first, *(at for at in range(len(columns)) if at != first)]]


def case_from(
    constraints: DataFrame,
    factors: DataFrame,
    book: DataFrame,
    prices: Optional[DataFrame] = None,
    rounded: bool = False,
    any_size: bool = False,
) -> Case:
    """The case of four frames, or of three, which have no hours. Raises `Faults`, all of them, each with its
    frame and the row's label. With `rounded` figures are rounded to their unit, a half away from zero;
    `rounded` of the case counts them. With `any_size` counts above the library's are taken."""
    frames = [
        ("constraints", constraints, CONSTRAINTS),
        ("factors", _with_nodes(factors), ("NODE_ID",)),
        ("book", book, BOOK),
    ]
    if prices is not None:
        frames.append(("prices", prices, PRICES))
    written = {f"{name}.csv": _texts(name, frame, need, rounded) for name, frame, need in frames}
    faults = [fault for texts, _ in written.values() for fault in texts.faults]
    with tempfile.TemporaryDirectory() as folder:
        for name, (_, text) in written.items():
            (Path(folder) / name).write_bytes(text.encode("utf-8", "surrogatepass"))
        try:
            case = load(folder, any_size)[0]
        except Faults as found:
            raise Faults([*faults, *(written[fault.file][0].told(fault) for fault in found.faults)]) from None
    raise_any(faults)
    return replace(case, inputs=[], rounded=sum(texts.rounded for texts, _ in written.values()))


def _figure(number: int, places: int, floats: bool) -> Number:
    return number / 10**places if floats else Decimal(decimal(number, places))


def _exact(cents: Fraction, floats: bool) -> Number:
    """Exact cents in dollars, with ten decimals."""
    return _figure(int(cents * 10**PART_PLACES), _DOLLARS + PART_PLACES, floats)


def frames_of(case: Case, floats: bool = False) -> Frames:
    """A case's four frames. `case_from` gives the case back, of floats too."""
    pandas, names, count = _pandas(), case.names, len(case.names.constraints)
    limits = [_figure(limit, LIMIT.places, floats) for limit in case.limits]
    factors = [_figure(factor, SHIFT_FACTOR.places, floats) for factor in case.factors]
    rows = [factors[n * count : (n + 1) * count] for n in range(len(names.nodes))]
    index = pandas.Index(names.nodes, name="NODE_ID")
    return Frames(
        pandas.DataFrame(list(zip(names.constraints, limits)), columns=list(CONSTRAINTS)),
        pandas.DataFrame(rows, index=index, columns=names.constraints),
        pandas.DataFrame(list(_book_rows(case, floats)), columns=list(BOOK)),
        pandas.DataFrame(list(_price_rows(case, floats)), columns=list(PRICES)),
    )


def _book_rows(case: Case, floats: bool) -> Iterable[Tuple[object, ...]]:
    names = case.names
    for crr_id, row in zip(names.contracts, case.book):
        words = (names.holder(row.holder), HEDGE_TYPES[row.kind], TIMES_OF_USE[row.period])
        ends = (names.nodes[row.source], names.nodes[row.sink])
        yield (crr_id, *words, *ends, _figure(row.quantity, QUANTITY.places, floats))


def _price_rows(case: Case, floats: bool) -> Iterable[Tuple[object, ...]]:
    """A row for each price that is not 0; one of neither constraint nor price for an hour that has none."""
    for hour in case.priced_hours():
        time = (hour.day, hour.hour or "", TIMES_OF_USE[hour.period])
        posted = [(k, price) for k, price in enumerate(hour.prices) if price]
        for k, price in posted:
            yield (*time, case.names.constraints[k], _figure(price, SHADOW_PRICE.places, floats))
        if not posted:
            yield (*time, "", None)


def verdicts(case: Case, lines: Iterable[Line] = LINES, floats: bool = False) -> DataFrame:
    """The test's verdict by period and process: a row for each, excesses in MW."""
    grid, book, names = case.grid, case.book_file(), case.names.constraints
    rows: List[Tuple[object, ...]] = []
    for period, process in lines:
        verdict = test_book(grid, book, process, period)
        row: Tuple[object, ...] = (None, None, None, None)
        if not verdict.passed:
            over = excesses(case.limits, find_flows(grid, book, period).flows, released_percent(process))
            most = worst(verdict, over)
            figures = [_figure(excess, FLOW_PLACES, floats) for excess in (verdict.excess, over[most])]
            row = (names[verdict.lowest], figures[0], names[most], figures[1])
        rows.append((*line_names((period, process)), verdict.passed, verdict.count, *row))
    columns = "TIME_OF_USE PROCESS PASSED OVERLOADED LOWEST_NUMBERED EXCESS_MW WORST WORST_EXCESS_MW"
    return _pandas().DataFrame(rows, columns=columns.split())


def cuts(case: Case, lines: Iterable[Line] = LINES, floats: bool = False) -> DataFrame:
    """What clears a failing book: each contract whose quantity, lowered alone, lets it pass, and the least
    cut in MW, by period and process."""
    grid, book, names = case.grid, case.book_file(), case.names
    rows = []
    for period, process in lines:
        for contract, cut in find_cuts(grid, book, process, period):
            owner = names.holder(case.book[contract].holder)
            figure = _figure(cut, QUANTITY.places, floats)
            rows.append((*line_names((period, process)), names.contracts[contract], owner, figure))
    return _pandas().DataFrame(rows, columns="TIME_OF_USE PROCESS CRR_ID OWNER CUT_MW".split())


def flows(case: Case, lines: Iterable[Line] = LINES, floats: bool = False) -> DataFrame:
    """The flow on each constraint, by period and process, beside the limit that is released, and the excess,
    all in MW; the loading is flow over released limit, as a float, none where the limit is 0."""
    grid, book = case.grid, case.book_file()
    rows: List[Tuple[object, ...]] = []
    for period, process in lines:
        percent = released_percent(process)
        for k, flow in enumerate(find_flows(grid, book, period).flows):
            limit = released_limit(case.limits[k], percent)
            figures = [_figure(number, FLOW_PLACES, floats) for number in (flow, limit, flow - limit)]
            loading = flow / limit if limit else None
            rows.append((*line_names((period, process)), case.names.constraints[k], *figures, loading))
    columns = "TIME_OF_USE PROCESS CONSTRAINT_ID FLOW_MW RELEASED_MW EXCESS_MW LOADING"
    return _pandas().DataFrame(rows, columns=columns.split())


def exposure(case: Case, lines: Iterable[Line] = LINES, floats: bool = False) -> DataFrame:
    """What an hour can cost beyond its rent at worst, in dollars: at least and at most, which are equal where
    at most ten constraints are overloaded, by period and process."""
    grid, book = case.grid, case.book_file()

    def dollars(amount: ExactCents) -> Number:
        return _exact(Fraction(amount.exact), floats)

    rows = []
    for period, process in lines:
        found = find_exposure(grid, book, process, period)
        rows.append((*line_names((period, process)), dollars(found.least), dollars(found.most)))
    return _pandas().DataFrame(rows, columns="TIME_OF_USE PROCESS AT_LEAST AT_MOST".split())


def cents(case: Case, settled: Settled, floats: bool = False) -> DataFrame:
    """What each contract came to in each month, in dollars, to the cent: `settle_hours` gives what is
    settled."""
    rows = [
        (crr_id, case.names.holder(row.holder), HEDGE_TYPES[row.kind], TIMES_OF_USE[row.period], month)
        + (_figure(amount, _DOLLARS, floats),)
        for month, amounts in settled.months.items()
        for crr_id, row, amount in zip(case.names.contracts, case.book, amounts)
    ]
    return _pandas().DataFrame(rows, columns="CRR_ID OWNER HEDGE_TYPE TIME_OF_USE MONTH AMOUNT".split())


def hours(case: Case, settled: Settled, floats: bool = False) -> DataFrame:
    """Each hour's rounded cents added, and its exact total, in dollars."""
    rows = []
    for (day, hour), total in zip(case.times, settled.hours):
        figures = (_figure(total.sum, _DOLLARS, floats), _exact(total.exact, floats))
        rows.append((day, hour, TIMES_OF_USE[total.period], *figures))
    return _pandas().DataFrame(rows, columns="OPR_DT OPR_HR TIME_OF_USE SUM EXACT_TOTAL".split())


def months(case: Case, settled: Settled, floats: bool = False) -> DataFrame:
    """Each month's hours, the rounded cents of them added, and the exact total, in dollars."""
    of_month: Dict[str, List[int]] = {month: [] for month in settled.months}
    for at, (day, _) in enumerate(case.times):
        of_month[day[:7]].append(at)
    rows = []
    for month, places in of_month.items():
        total = sum(settled.hours[at].sum for at in places)
        exact = sum((settled.hours[at].exact for at in places), Fraction(0))
        rows.append((month, len(places), _figure(total, _DOLLARS, floats), _exact(exact, floats)))
    return _pandas().DataFrame(rows, columns="MONTH HOURS SUM EXACT_TOTAL".split())
