"""The simultaneous feasibility test, the flows that it sums, the cuts that clear a failing book, and the
share of each limit that a process releases."""

from __future__ import annotations

from ctypes import c_int64, c_uint64
from dataclasses import dataclass
from typing import List, NamedTuple, Optional, Sequence, Tuple

from .files import Grid
from .interface import FLOW_PLACES, LIMIT, MAX_CONTRACTS
from .native import Bytes, Cells, Entry, Lent, zeros

_test_book = Entry("crr_test_book")
_find_flows = Entry("crr_find_flows")
_add_flows = Entry("crr_add_flows")
_judge_flows = Entry("crr_judge_flows")
_find_cuts = Entry("crr_find_cuts")
_released_percent = Entry("crr_released_percent")

_PERCENT_IN_FLOWS: int = 10 ** (FLOW_PLACES - LIMIT.places - 2)  # a percent of a limit's unit


@dataclass(frozen=True)
class Verdict:
    """The test's answer. `set` has bit k for overloaded constraint k and is 0 exactly on a pass; the other
    figures are 0 then."""

    set: int
    count: int
    lowest: int
    excess: int  # of the flow over the released limit at the lowest, in 10^-8 MW

    @property
    def passed(self) -> bool:
        """Whether no list of shadow prices makes the net payment exceed the congestion rent."""
        return self.set == 0

    @property
    def overloaded(self) -> Tuple[int, ...]:
        """The overloaded constraints by number."""
        return tuple(k for k in range(self.set.bit_length()) if self.set >> k & 1)

    @property
    def named(self) -> Optional[int]:
        """The lowest overloaded constraint, or none on a pass."""
        return None if self.passed else self.lowest


class Flows(NamedTuple):
    """The flow on each constraint of a period's contracts as they count, in 10^-8 MW, and how many contracts
    were counted."""

    flows: List[int]
    counted: int


class Added(NamedTuple):
    """How many contracts running totals are of, and how many of them were added."""

    summed: int
    counted: int


class Cut(NamedTuple):
    """A contract by its number in the book, and the least by which its quantity, lowered alone, lets a
    failing book pass, in thousandths of a MW."""

    contract: int
    cut: int


def test_book(grid: Grid, book: Bytes, process: int, period: int) -> Verdict:
    """Whether the contracts of a period are feasible on the grid in a process."""
    overloaded, count, lowest, excess = c_uint64(), c_uint64(), c_uint64(), c_int64()
    figures = (overloaded, count, lowest, excess)
    _test_book(grid.nodes, grid.constraints, process, period, grid.limits, grid.factors, book, *figures)
    return Verdict(overloaded.value, count.value, lowest.value, excess.value)


def find_flows(grid: Grid, book: Bytes, period: int) -> Flows:
    """The flow on each constraint, as the test sums it."""
    flows, counted = zeros("q", grid.constraints), c_uint64()
    _find_flows(
        grid.nodes, grid.constraints, period, grid.limits, grid.factors, book, Lent(flows, "q", True), counted
    )
    return Flows(list(flows), counted.value)


def add_flows(grid: Grid, book: Bytes, period: int, flows: Cells, summed: int = 0) -> Added:
    """Adds a book's flows of a period to running totals: `flows` are cells of 64 bits with their sign, as
    array('q') and numpy's int64 have them, one for each constraint, and `summed` says of how many contracts
    they are so far. Refused, they stay as they were."""
    count, counted = c_uint64(summed), c_uint64()
    tables = (grid.nodes, grid.constraints, period, grid.limits, grid.factors, book)
    _add_flows(*tables, Lent(flows, "q", True, "flows"), count, counted)
    return Added(count.value, counted.value)


def judge_flows(grid: Grid, process: int, flows: Cells, summed: int) -> Verdict:
    """The test's answer on running totals of so many contracts, on the limits of a grid; its nodes and
    factors play no part."""
    overloaded, count, lowest, excess = c_uint64(), c_uint64(), c_uint64(), c_int64()
    figures = (overloaded, count, lowest, excess)
    _judge_flows(grid.constraints, process, grid.limits, flows, summed, *figures)
    return Verdict(overloaded.value, count.value, lowest.value, excess.value)


def find_cuts(grid: Grid, book: Bytes, process: int, period: int) -> List[Cut]:
    """The contracts of a failing book each of which can clear it alone, by rising cuts and then by number. A
    cut of the whole quantity is a removal.

    Empty where the book passes, and also where no single contract's cut clears it: `test_book` tells these
    apart."""
    numbers, cuts, listed = zeros("Q", MAX_CONTRACTS), zeros("Q", MAX_CONTRACTS), c_uint64()
    places = (Lent(numbers, "Q", True), Lent(cuts, "Q", True))
    _find_cuts(
        grid.nodes, grid.constraints, process, period, grid.limits, grid.factors, book, *places, listed
    )
    return list(map(Cut, numbers[: listed.value], cuts[: listed.value]))


def released_percent(process: int) -> int:
    """How much of each limit a process releases."""
    percent = c_uint64()
    _released_percent(process, percent)
    return percent.value


def released_limit(limit: int, percent: int) -> int:
    """So many percent of a limit as a flow, in 10^-8 MW, with nothing lost. Worked out here."""
    return limit * percent * _PERCENT_IN_FLOWS


def excesses(limits: Sequence[int], flows: Sequence[int], percent: int) -> List[int]:
    """By how much the flow on each constraint exceeds so many percent of its limit, in 10^-8 MW; negative
    where there is room. Worked out here: the library's test gives the excess of the lowest-numbered
    overloaded constraint alone, and there the two are equal."""
    return [flow - released_limit(limit, percent) for limit, flow in zip(limits, flows)]


def worst(verdict: Verdict, over: Sequence[int]) -> int:
    """The overloaded constraint of the largest excess, of equal ones the lowest-numbered."""
    return max(verdict.overloaded, key=lambda k: (over[k], -k))
