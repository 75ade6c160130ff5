"""Load migration: the monthly transfer of contracts between load-serving entities (LSEs) whose customers
moved."""

from __future__ import annotations

from typing import List

from .files import written
from .interface import MAX_BOOK_BYTES, MAX_LSES
from .native import Bytes, Cells, Entry, Lent, zeros

_migrate_load = Entry("crr_migrate_load")
_net_transfers = Entry("crr_net_transfers")


def migrate_load(
    nodes: int,
    period: int,
    book: Bytes,
    classes: Bytes,
    customers: Cells,
    rates: Cells,
    olds: Cells,
    news: Cells,
    loads: Cells,
) -> bytes:
    """The book's file with the contracts that one period's rows add, for a grid of so many nodes. LSE i is
    holder i, and loads[i - 1] is its load."""
    return written(
        _migrate_load, MAX_BOOK_BYTES, (nodes, period, book, classes, customers, rates, olds, news, loads)
    )


def net_transfers(
    lses: int, classes: Bytes, customers: Cells, rates: Cells, olds: Cells, news: Cells
) -> List[List[int]]:
    """The net load from each of so many LSEs to each, in thousandths of a MW: that from LSE i to LSE j in
    row i - 1 and place j - 1. Lost load is positive, and each is the opposite of its mirror."""
    nets = zeros("q", min(max(lses, 0), MAX_LSES) ** 2)
    _net_transfers(lses, classes, customers, rates, olds, news, Lent(nets, "q", True))
    return [nets[lses * row : lses * (row + 1)].tolist() for row in range(lses)]
