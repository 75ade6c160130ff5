"""What a book costs an hour: net payment, congestion rent and shortfall at any prices, and how much it can
cost at the worst of them."""

from __future__ import annotations

from array import array
from ctypes import c_int64, c_uint64
from fractions import Fraction
from typing import NamedTuple

from .files import Grid
from .interface import PART_PLACES
from .native import Bytes, Cells, Entry, Lent, zeros

_find_shortfall = Entry("crr_find_shortfall")
_find_exposure = Entry("crr_find_exposure")


class ExactCents(NamedTuple):
    """An exact figure of an hour: whole cents, rounded down, and parts of 10^-8 cents."""

    whole: int
    parts: int

    @property
    def exact(self) -> Fraction:
        """The figure in cents."""
        return self.whole + Fraction(self.parts, 10**PART_PLACES)


class Shortfall(NamedTuple):
    """What a book costs at a price list: the net payment of the period's contracts, charges negative, the
    congestion rent, and the one less the other."""

    payment: ExactCents
    rent: ExactCents
    shortfall: ExactCents


class Exposure(NamedTuple):
    """What a book can cost: the worst shortfall is at least `least`, which these prices reach, and at most
    `most`.

    The two are equal where at most ten constraints are overloaded, and 0 exactly where the book passes."""

    least: ExactCents
    most: ExactCents
    prices: "array[int]"  # one for each constraint, in cents per MWh


def find_shortfall(grid: Grid, book: Bytes, process: int, period: int, prices: Cells) -> Shortfall:
    """Net payment, rent and shortfall of an hour at these prices. Above 0 at no list where the book passes
    the test."""
    payment, rent, shortfall = [(c_int64(), c_uint64()) for _ in Shortfall._fields]
    _find_shortfall(
        grid.nodes,
        grid.constraints,
        process,
        period,
        grid.limits,
        grid.factors,
        prices,
        book,
        *payment,
        *rent,
        *shortfall,
    )
    figures = (payment, rent, shortfall)
    return Shortfall(*(ExactCents(whole.value, parts.value) for whole, parts in figures))


def find_exposure(grid: Grid, book: Bytes, process: int, period: int) -> Exposure:
    """How far the net payment of an hour can exceed the rent, and prices at which it does."""
    prices = zeros("Q", grid.constraints)
    least, least_parts, most, most_parts = c_int64(), c_uint64(), c_int64(), c_uint64()
    figures = (least, least_parts, most, most_parts)
    _find_exposure(
        grid.nodes,
        grid.constraints,
        process,
        period,
        grid.limits,
        grid.factors,
        book,
        Lent(prices, "Q", True),
        *figures,
    )
    return Exposure(
        ExactCents(least.value, least_parts.value), ExactCents(most.value, most_parts.value), prices
    )
