"""A case as CSV files, in the one form that packing and unpacking give back byte by byte."""

from __future__ import annotations

import csv
import io
from pathlib import Path
from typing import Dict, Iterable, List, Mapping, Sequence, Tuple, Union

from .book_csv import BOOK, TERM
from .case import Case, Names, PricedHour, check_lengths
from .decimals import decimal
from .files import Contract
from .from_csv import PRICES
from .interface import LIMIT, QUANTITY, SHADOW_PRICE, SHIFT_FACTOR
from .names_csv import HEADING, name_rows
from .words import HEDGE_TYPES, TIMES_OF_USE
from .writing import write_files


def csv_text(heading: Sequence[str], rows: Iterable[Sequence[object]]) -> str:
    """A CSV text: commas, line feeds, quotes only where they are needed."""
    text = io.StringIO()
    writer = csv.writer(text, lineterminator="\n")
    writer.writerow(heading)
    writer.writerows(rows)
    return text.getvalue()


def csv_rows(text: str) -> Tuple[List[str], List[List[str]]]:
    """The heading and the rows of a CSV text that was written here."""
    heading, *rows = csv.reader(io.StringIO(text))
    return heading, rows


def _price_rows(names: Names, hour: PricedHour) -> List[Sequence[object]]:
    """A row for each price that is not 0, or one with neither constraint nor price for an hour that has
    none."""
    time = (hour.day, hour.hour or "", TIMES_OF_USE[hour.period])
    posted = [(k, decimal(price, SHADOW_PRICE.places)) for k, price in enumerate(hour.prices) if price]
    rows: List[Sequence[object]] = [(*time, names.constraints[k], price) for k, price in posted]
    return rows or [(*time, "", "")]


def book_row(names: Names, crr_id: str, contract: Contract) -> Tuple[str, ...]:
    """A contract's row of book.csv."""
    ends = (names.nodes[contract.source], names.nodes[contract.sink])
    kind, period = HEDGE_TYPES[contract.kind], TIMES_OF_USE[contract.period]
    return (
        crr_id,
        names.holder(contract.holder),
        kind,
        period,
        *ends,
        decimal(contract.quantity, QUANTITY.places),
    )


def csv_files(case: Case, hour_name: str = "") -> Dict[str, str]:
    """The text of each CSV file of a case."""
    check_lengths(case)
    names, count = case.names, len(case.names.constraints)
    limits = [decimal(limit, LIMIT.places) for limit in case.limits]
    factors = [decimal(factor, SHIFT_FACTOR.places) for factor in case.factors]
    nodes = ((node, *factors[n * count : (n + 1) * count]) for n, node in enumerate(names.nodes))
    forms = (case.grid_form, case.book_form)
    terms: List[Tuple[str, ...]] = [*case.terms] or [()] * len(case.book)
    contracts = zip(names.contracts, case.book, terms)
    book = [(*book_row(names, crr_id, contract), *term) for crr_id, contract, term in contracts]
    heading = (*BOOK, *TERM) if case.terms else BOOK
    files = {
        "constraints.csv": csv_text(("CONSTRAINT_ID", "LIMIT_MW"), zip(names.constraints, limits)),
        "factors.csv": csv_text(("NODE_ID", *names.constraints), nodes),
        "book.csv": csv_text(heading, book),
        "names.csv": csv_text(HEADING, name_rows(names, hour_name, forms)),
    }
    if case.hours:
        prices = (row for hour in case.priced_hours() for row in _price_rows(names, hour))
        files["prices.csv"] = csv_text(PRICES, prices)
    return files


def write_csv(
    case: Case,
    folder: Union[str, Path],
    hour_name: str = "",
    force: bool = False,
    beside: Mapping[str, bytes] = {},
) -> List[str]:
    """Writes a case's CSV files, with others beside them, and gives the names of all. A file that is there
    and says something else is a fault, unless forced."""
    files = {**beside, **{name: text.encode() for name, text in csv_files(case, hour_name).items()}}
    write_files(Path(folder), files, force)
    return list(files)
