"""The marginal cost of congestion, of nodes and of hubs, and an hour's settlement."""

from __future__ import annotations

from array import array
from ctypes import c_int64, c_uint64
from fractions import Fraction
from typing import NamedTuple

from .files import Grid, read_book_cells
from .interface import HUB_WEIGHT, MAX_CONSTRAINTS, PART_PLACES
from .native import Bytes, Cells, Entry, Lent, Refused, lend_bytes, lend_cells, zeros

_find_mcc = Entry("crr_find_mcc")
_find_hub_mcc = Entry("crr_find_hub_mcc")
_settle_hour = Entry("crr_settle_hour")
_read_prices = Entry("crr_read_prices")


class HourTotal(NamedTuple):
    """An hour's figures: its period, the rounded cents added, and the exact total as whole cents, rounded
    down, and parts of 10^-8 cents."""

    period: int
    sum: int
    whole: int
    parts: int

    @property
    def exact(self) -> Fraction:
        """The exact total in cents."""
        return self.whole + Fraction(self.parts, 10**PART_PLACES)


class Hour(NamedTuple):
    """A settled hour: for each contract its cents and the set of constraints that priced it (bit k is
    constraint k), and the hour's figures."""

    cents: "array[int]"
    priced: "array[int]"
    total: HourTotal


def find_mcc(grid: Grid, prices: Cells) -> "array[int]":
    """The MCC of each node, in 10^-5 cents per MWh."""
    mcc = zeros("q", grid.nodes)
    _find_mcc(grid.nodes, grid.constraints, grid.factors, prices, Lent(mcc, "q", True))
    return mcc


class HubMcc(NamedTuple):
    """A hub's MCC: rounded down, in 10^-5 cents per MWh, and what is left of it in hundred-thousandths of
    that."""

    quotient: int
    remainder: int

    @property
    def exact(self) -> Fraction:
        """The MCC in 10^-5 cents per MWh."""
        return self.quotient + Fraction(self.remainder, HUB_WEIGHT)


def find_hub_mcc(grid: Grid, prices: Cells, hub_nodes: Cells, hub_weights: Cells) -> HubMcc:
    """The MCC of a hub of nodes with weights in hundred-thousandths."""
    quotient, remainder = c_int64(), c_uint64()
    _find_hub_mcc(
        grid.nodes, grid.constraints, grid.factors, prices, hub_nodes, hub_weights, quotient, remainder
    )
    return HubMcc(quotient.value, remainder.value)


def settle_hour(grid: Grid, book: Bytes, period: int, prices: Cells) -> Hour:
    """Settles one hour of a period at these prices."""
    contracts = len(read_book_cells(grid.nodes, book)) // 6
    cents, priced = zeros("q", contracts), zeros("Q", contracts)
    total, whole, parts = c_int64(), c_int64(), c_uint64()
    _settle_hour(
        grid.nodes,
        grid.constraints,
        period,
        grid.factors,
        prices,
        book,
        Lent(cents, "q", True),
        Lent(priced, "Q", True),
        total,
        whole,
        parts,
    )
    return Hour(cents, priced, HourTotal(period, total.value, whole.value, parts.value))


class Settler:
    """Settles price file after price file for one grid and one book. Places and addresses are made once,
    since a year has 8,760 hours.

    `cents` and `priced` hold the last hour's cells. One settler is for one thread; grid and book are only
    read and may be shared."""

    def __init__(self, grid: Grid, book: bytes, contracts: int) -> None:
        self.cents, self.priced = zeros("q", contracts), zeros("Q", contracts)
        self._period, self._sum, self._whole, self._parts = c_uint64(), c_int64(), c_int64(), c_uint64()
        prices = Lent(zeros("Q", MAX_CONSTRAINTS), "Q", True)
        factors, lent_book = lend_cells(grid.factors, "q", "factors"), lend_bytes(book, "book")
        cents, priced = Lent(self.cents, "q", True), Lent(self.priced, "Q", True)
        # the addresses below stay good as long as these are lent
        self._kept = (factors, prices, lent_book, cents, priced)
        self._reading = _read_prices.arguments(grid.constraints, Lent(b"", "B"), prices, self._period)
        self._settling = _settle_hour.arguments(
            grid.nodes,
            grid.constraints,
            0,
            factors,
            prices,
            lent_book,
            cents,
            priced,
            self._sum,
            self._whole,
            self._parts,
        )

    def settle(self, file: Bytes, name: str = "") -> HourTotal:
        """Settles the hour of a price file."""
        lent = Lent(file, "B")
        self._reading[1:3] = lent.address, lent.cells
        number = _read_prices.function(*self._reading)
        if number:
            raise Refused(number, _read_prices.name, name)
        self._settling[2] = self._period.value
        number = _settle_hour.function(*self._settling)
        if number:
            raise Refused(number, _settle_hour.name, name)
        return HourTotal(self._period.value, self._sum.value, self._whole.value, self._parts.value)
