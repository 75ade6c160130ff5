"""What a book can cost an hour at worst, in words, and the command `crr exposure`."""

from __future__ import annotations

from array import array
from dataclasses import replace
from pathlib import Path
from typing import Dict, Iterable, List, Mapping, Optional, Sequence, Tuple

from .case import Case, PricedHour
from .command import (
    ANY_PERIODS,
    ANY_PROCESSES,
    FAILS,
    FOLDER,
    FORCE,
    PASSES,
    Answer,
    command,
    objects,
    writes,
)
from .decimals import decimal
from .drawing import exact_money, money
from .exposure import ExactCents, Exposure, find_exposure, find_shortfall
from .faults import Fault, raise_any
from .interface import SHADOW_PRICE
from .opening import opened
from .packed import only_hour_name, write_packed
from .reading import READING_BOOK, Reading
from .results import exact_dollars
from .to_csv import csv_files, csv_text
from .words import Line, line_names, line_words

EXPOSURES = ("TIME_OF_USE", "PROCESS", "LEAST", "MOST", "PRICES")
PRICES = ("CONSTRAINT_ID", "SHADOW_PRICE")


def exposures(case: Case, lines: Iterable[Line]) -> Dict[Line, Exposure]:
    """What the book can cost in each period and process."""
    grid, book = case.grid, case.book_file()
    return {(period, process): find_exposure(grid, book, process, period) for period, process in lines}


def costs_alone(case: Case, line: Line, constraints: Iterable[int]) -> Dict[int, ExactCents]:
    """What the book costs at the highest price on each of some constraints alone."""
    grid, book, (period, process) = case.grid, case.book_file(), line
    costs = {}
    for k in constraints:
        prices = array("Q", bytes(8 * grid.constraints))
        prices[k] = SHADOW_PRICE.high
        costs[k] = find_shortfall(grid, book, process, period, prices).shortfall
    return costs


def dollar_words(amount: ExactCents) -> str:
    """$1,125.00."""
    return exact_money(exact_dollars(amount.exact))


def cost_words(exposure: Exposure) -> str:
    """$1,125.00, or between that and more."""
    least, most = dollar_words(exposure.least), dollar_words(exposure.most)
    return least if exposure.least == exposure.most else f"between {least} and {most}"


def price_rows(prices: Sequence[int], names: Sequence[str]) -> List[Tuple[str, str]]:
    """The constraints that have a price, each with it in dollars."""
    return [(names[k], decimal(price, SHADOW_PRICE.places)) for k, price in enumerate(prices) if price]


def price_words(prices: Sequence[int], names: Sequence[str]) -> str:
    """At which prices: $5,000.00 per MWh on 1-2 and 2-4."""
    listed: Dict[str, List[str]] = {}
    for name, price in price_rows(prices, names):
        listed.setdefault(price, []).append(name)
    return ", ".join(f"{money(price)} per MWh on {_and(on)}" for price, on in listed.items())


def _and(names: Sequence[str]) -> str:
    return f"{', '.join(names[:-1])} and {names[-1]}" if len(names) > 1 else names[0]


def worst_words(found: Mapping[Line, Exposure]) -> str:
    """What the book costs at worst where it costs anything, a sentence for each period and process."""
    return "".join(
        f"{line_words(line)}: at worst an hour pays {cost_words(exposure)} more than its congestion rent\n"
        for line, exposure in found.items()
        if exposure.most.exact
    )


def exposure_figures(exposure: Exposure) -> Tuple[str, str]:
    """The least and the most in dollars."""
    return exact_dollars(exposure.least.exact), exact_dollars(exposure.most.exact)


def _words(found: Mapping[Line, Exposure], names: Sequence[str]) -> str:
    said = "".join(
        f"{line_words(line)}: the book can cost {cost_words(exposure)} an hour, "
        f"at {price_words(exposure.prices, names)}\n"
        for line, exposure in found.items()
        if exposure.most.exact
    )
    passing = ", ".join(line_words(line) for line, exposure in found.items() if not exposure.most.exact)
    return said + (f"{passing}: the book passes and costs nothing beyond its rent\n" if passing else "")


def _write(case: Case, found: Mapping[Line, Exposure], out: Path, force: bool) -> List[str]:
    """Writes the case with the prices found for its one hour, as CSV and as bin files: the latter last, so
    that they are not older."""
    if len(found) != 1:
        text = "-o writes the prices of one hour: choose one with --period and --process"
        raise_any([Fault("", 0, "", text)])
    [((period, _), of_line)] = found.items()
    priced = replace(case, hours=[PricedHour("", 0, period, of_line.prices)], terms=[])  # of no day
    files = {name: text.encode() for name, text in csv_files(priced, only_hour_name(priced)).items()}
    return write_packed(priced, out, force, files)


@command(
    "exposure",
    "what the book can cost an hour beyond its congestion rent, and at which prices",
    FOLDER,
    ANY_PERIODS,
    ANY_PROCESSES,
    *READING_BOOK,
    writes("a folder for the case with these prices, as CSV and bin files; of one period and process"),
    FORCE,
)
def exposure(
    folder: Path,
    periods: Sequence[int],
    processes: Sequence[int],
    reading: Reading,
    out: Optional[Path],
    force: bool,
) -> Answer:
    """What the book can cost; the status is the test's, since it costs nothing exactly where it passes."""
    case = opened(folder, reading, prices=False)
    names = case.names.constraints
    found = exposures(case, [(period, process) for period in periods for process in processes])
    passed = all(not of_line.most.exact for of_line in found.values())
    rows: List[Tuple[str, ...]] = []
    data: List[Dict[str, object]] = []
    for line, of_line in found.items():
        figures, prices = exposure_figures(of_line), price_rows(of_line.prices, names)
        rows.append((*line_names(line), *figures, "; ".join(map(" ".join, prices))))
        data += objects(EXPOSURES, [(*rows[-1][:-1], objects(PRICES, prices))])
    note = _words(found, names)
    answer: Dict[str, object] = {"passed": passed, "exposures": data}
    if out:
        written = _write(case, found, out, force)
        note += f"{out}: {', '.join(sorted(written))} written\n"
        answer.update(out=str(out), written=written)
    return Answer(PASSES if passed else FAILS, csv_text(EXPOSURES, rows), answer, note)
