"""The running test: awards tried one after another for one period and process, with tiers to mark and to come
back to."""

from __future__ import annotations

from array import array
from typing import Any, Dict, Iterable, List

from .files import Contract, Grid, six_figures, write_book
from .interface import MARK_LT, NARROW, RUNNING_AWARDS, RUNNING_FLOWS, RUNNING_NUMBERS
from .native import Cells, Entry, Given, Lent, lend_cells, zeros

_open_running = Entry("crr_open_running")
_add_award = Entry("crr_add_award")
_mark_tier = Entry("crr_mark_tier")
_return_to_tier = Entry("crr_return_to_tier")

TIERS = {1: "1", 2: "2", 3: "3", MARK_LT: "LT"}  # by number


def _copy(cells: Cells, code: str, name: str) -> "array[int]":
    """A copy of a table: those of a running test stay the opening's, whatever becomes of what was handed
    in."""
    return array(code, memoryview(lend_cells(cells, code, name).owner).tobytes())


class RunningTest:
    """A running test on a grid. An award is held where, with it, no flow exceeds its released limit;
    `Refused` is raised otherwise, and nothing changes.

    At every moment the awards held pass the test of the process and period: written as a book, in a form that
    can hold their ends (the wide one always can), they pass `test_book`, and `find_flows` gives `flows` and
    `counted` of it. An award of the other period is held too; it has no flow and is not counted."""

    def __init__(self, grid: Grid, process: int, period: int) -> None:
        self.nodes, self.constraints = grid.nodes, grid.constraints
        self.process, self.period = process, period
        self._limits, self._factors = _copy(grid.limits, "Q", "limits"), _copy(grid.factors, "q", "factors")
        self._awards, self._numbers = zeros("Q", RUNNING_AWARDS), zeros("Q", RUNNING_NUMBERS)
        self._flows = zeros("q", RUNNING_FLOWS)
        self._lend()
        _open_running(*self._opening, *self._state)

    def _lend(self) -> None:
        """Lends the tables for as long as the running test is there."""
        tables = (Lent(self._limits, "Q"), Lent(self._factors, "q"))
        self._marks = (Lent(self._numbers, "Q", True), Lent(self._flows, "q", True))
        self._opening: List[Given] = [self.nodes, self.constraints, self.process, self.period, *tables]
        self._state = (Lent(self._awards, "Q", True), *self._marks)

    def __getstate__(self) -> Dict[str, Any]:
        """What a pickle, or a copy, has: all but what is lent."""
        return {
            name: value for name, value in vars(self).items() if name not in ("_marks", "_opening", "_state")
        }

    def __setstate__(self, state: Dict[str, Any]) -> None:
        vars(self).update(
            {
                name: array(value.typecode, value) if isinstance(value, array) else value
                for name, value in state.items()
            }
        )
        self._lend()

    def add(self, award: Iterable[int]) -> None:
        """Adds an award: kind, period, holder, source, sink, quantity. 21 where some flow would exceed its
        released limit; a ValueError where it has not six figures."""
        _add_award(*self._opening, six_figures(award, "award"), *self._state)

    def mark(self, tier: int) -> None:
        """Marks tier 1, 2, 3 or 4 (LT) at the awards held now. A tier that is marked is marked anew."""
        _mark_tier(tier, *self._marks)

    def return_to(self, tier: int) -> None:
        """Drops the awards added since a tier was marked, and the marks made when more awards were held. 20
        where it is not marked."""
        _return_to_tier(tier, *self._marks)

    @property
    def held(self) -> List[Contract]:
        """The awards held, of both periods, in the order in which they were added."""
        return list(map(Contract._make, zip(*[iter(self.cells)] * 6)))

    @property
    def cells(self) -> "array[int]":
        """The same as six cells for each award, as a book has them."""
        return self._awards[: 6 * self._numbers[0]]

    @property
    def counted(self) -> int:
        """How many of them are of the period."""
        return self._numbers[1]

    @property
    def flows(self) -> List[int]:
        """The flow on each constraint of those, in 10^-8 MW."""
        return list(self._flows[: self.constraints])

    @property
    def marks(self) -> Dict[int, int]:
        """How many awards were held when each tier was marked, for the tiers that are."""
        return {tier: self._numbers[3 * tier] for tier in TIERS if self._numbers[3 * tier - 1]}

    def book(self, form: int = NARROW) -> bytes:
        """The awards held as a book's file. Ends above 255 need the wide form: the narrow one is
        `Refused`."""
        return write_book(self.nodes, self.cells, form)


def open_running(grid: Grid, process: int, period: int) -> RunningTest:
    """A running test on a grid, that holds nothing and has no tier marked."""
    return RunningTest(grid, process, period)


def add_award(running: RunningTest, award: Iterable[int]) -> None:
    """Adds an award to a running test, as `RunningTest.add`."""
    running.add(award)


def mark_tier(running: RunningTest, tier: int) -> None:
    """Marks a tier of a running test, as `RunningTest.mark`."""
    running.mark(tier)


def return_to_tier(running: RunningTest, tier: int) -> None:
    """Returns to a marked tier of a running test, as `RunningTest.return_to`."""
    running.return_to(tier)
