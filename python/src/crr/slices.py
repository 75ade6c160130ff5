"""Books larger than the library's sizes, settled exactly by slices.

A contract's amount is made of the factors of its source and sink and of the hour's prices, and of nothing
else. So

- constraints whose price is 0 may be left out: each adds factor * 0 to the sums;
- nodes that are no end of a contract may be left out, and the others numbered anew, each with its own
  factors;
- contracts may be settled in any company.

A slice is a grid of at most 4,000 nodes and the hour's priced constraints, of which there may be 64, with a
book of at most 1,000 contracts. Each contract stands in one slice with its own figures, so its cents are
those of the whole book. The hour's sum is that of all cents, and the exact total that of the slices' exact
totals, since neither is rounded after adding.
"""

from __future__ import annotations

from array import array
from concurrent.futures import Executor
from dataclasses import replace
from functools import partial
from operator import add
from typing import Dict, List, NamedTuple, Optional, Sequence

from .case import Case, PricedHour, book_form, hour_name
from .faults import Fault, raise_any
from .files import Contract, Grid, write_book, write_prices
from .hours import Progress, Settled, in_parts
from .interface import MAX_CONSTRAINTS, MAX_CONTRACTS, MAX_NODES, PART_PLACES
from .settlement import HourTotal, Settler


class Slice(NamedTuple):
    """Contracts by their place in the whole book, their nodes, and the book's file with nodes numbered by
    their place here."""

    contracts: List[int]
    nodes: List[int]
    book: bytes


def cut(book: Sequence[Contract]) -> List[Slice]:
    """The book in slices. Contracts are taken by source and sink, so that those with common nodes come
    together."""
    slices: List[Slice] = []
    taken: List[int] = []
    nodes: Dict[int, int] = {}
    for i in sorted(range(len(book)), key=lambda i: (book[i].source, book[i].sink)):
        ends = {book[i].source, book[i].sink}
        fresh = {node for node in ends if node not in nodes}  # less all of nodes would go through them
        if len(taken) == MAX_CONTRACTS or len(nodes) + len(fresh) > MAX_NODES:
            slices.append(_slice(book, taken, nodes))
            taken, nodes, fresh = [], {}, ends
        taken.append(i)
        if fresh:
            nodes.update({node: len(nodes) + place for place, node in enumerate(sorted(fresh))})
    return slices + ([_slice(book, taken, nodes)] if taken else [])


def _slice(book: Sequence[Contract], taken: List[int], nodes: Dict[int, int]) -> Slice:
    # The holder is 0 for all: it plays no part in settling, and a larger book may have more holders than the
    # file has numbers.
    rows = [
        Contract(kind, period, 0, nodes[source], nodes[sink], quantity)
        for kind, period, _, source, sink, quantity in map(book.__getitem__, taken)
    ]
    return Slice(taken, list(nodes), write_book(len(nodes), rows, book_form(rows)))


class SlicedSettler:
    """Settles hour after hour of a case of any size."""

    def __init__(self, case: Case) -> None:
        self.case, self.slices = case, cut(case.book)
        self._columns: Dict[int, List["array[int]"]] = {}

    def fetch(self, hours: Sequence[PricedHour]) -> None:
        """Takes the factors of each priced constraint on each slice's nodes, and keeps them."""
        priced = {k for hour in hours for k, price in enumerate(hour.prices) if price}
        for k, of_all in self.case.columns(sorted(priced - self._columns.keys())).items():
            self._columns[k] = [array("q", map(of_all.__getitem__, piece.nodes)) for piece in self.slices]

    def settle(self, hour: PricedHour, into: List[int]) -> HourTotal:
        """Settles an hour whose factors were fetched, and adds each contract's cents to its cell."""
        posted = [k for k, price in enumerate(hour.prices) if price]
        columns = [self._columns[k] for k in posted]
        prices = write_prices(hour.period, array("Q", [hour.prices[k] for k in posted]))
        total, exact = 0, 0
        for place, piece in enumerate(self.slices):
            factors = array("q", bytes(8 * len(piece.nodes) * len(posted)))
            for at, column in enumerate(columns):
                factors[at :: len(posted)] = column[place]
            settler = Settler(
                Grid(len(piece.nodes), len(posted), array("Q"), factors), piece.book, len(piece.contracts)
            )
            part = settler.settle(prices, hour_name(hour.day, hour.hour))
            total, exact = total + part.sum, exact + part.whole * 10**PART_PLACES + part.parts
            for i, cents in zip(piece.contracts, settler.cents):
                into[i] += cents
        whole, parts = divmod(exact, 10**PART_PLACES)
        return HourTotal(hour.period, total, whole, parts)


def _settle_part(settler: SlicedSettler, hours: Sequence[PricedHour]) -> Settled:
    """What a worker runs."""
    totals: List[HourTotal] = []
    months: Dict[str, List[int]] = {}
    settler.fetch(hours)
    for hour in hours:
        totals.append(settler.settle(hour, months.setdefault(hour.day[:7], [0] * len(settler.case.book))))
    return Settled(totals, months)


def settle_sliced(
    case: Case,
    executor: Optional[Executor] = None,
    parts: int = 8,
    progress: Progress = lambda done, total: None,
) -> Settled:
    """Settles a case of any size; an hour may have as many priced constraints as the library takes. Equal to
    `settle_hours` where that can be used.

    Each task of an engine is handed the whole case, megabytes of factors where it is large: hence few
    parts."""
    hours = case.priced_hours()
    too_many = [hour for hour in hours if sum(price > 0 for price in hour.prices) > MAX_CONSTRAINTS]
    text = f"has more than {MAX_CONSTRAINTS} priced constraints"
    names = [hour_name(hour.day, hour.hour) for hour in too_many]
    raise_any([Fault("prices.csv", 0, "", f"{name} {text}", 3) for name in names])
    totals: List[HourTotal] = []
    months: Dict[str, List[int]] = {}
    settler = SlicedSettler(replace(case, hours=[]))  # each task is handed its own hours
    for part in in_parts(partial(_settle_part, settler), hours, executor, parts, progress):
        totals += part.hours
        for month, cents in part.months.items():
            months[month] = list(map(add, months[month], cents)) if month in months else cents
    return Settled(totals, dict(sorted(months.items())))
