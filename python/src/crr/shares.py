"""A balance shared among Scheduling Coordinators by their demands, to the cent."""

from __future__ import annotations

from array import array

from .native import Cells, Entry, Lent, lend_cells, zeros

_share_balance = Entry("crr_share_balance")


def share_balance(balance: int, demands: Cells) -> "array[int]":
    """The share of each coordinator, in cents like the balance. They add up to it, and none is a cent or more
    from its exact proportion."""
    lent = lend_cells(demands, "Q", "demands")
    shares = zeros("q", lent.cells)
    _share_balance(balance, lent, Lent(shares, "q", True))
    return shares
