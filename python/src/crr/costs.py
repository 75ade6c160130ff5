"""Congestion rent and shortfall of each hour in a process, beside what it pays. Every figure is the
library's; here they are added."""

from __future__ import annotations

from array import array
from fractions import Fraction
from typing import Dict, List, NamedTuple, Sequence, Tuple

from .case import Case, PricedHour, Time
from .exposure import ExactCents, Shortfall, find_shortfall
from .files import Grid, write_book
from .interface import PART_PLACES
from .settlement import HourTotal
from .terms import in_order, parts


class Costs(NamedTuple):
    """What each hour costs in a process, in the order of hours."""

    process: int
    hours: List[Shortfall]

    @property
    def payment(self) -> Fraction:
        """The net payment of all hours, in cents."""
        return sum((hour.payment.exact for hour in self.hours), Fraction(0))

    @property
    def rent(self) -> Fraction:
        """The rent of all hours, in cents."""
        return sum((hour.rent.exact for hour in self.hours), Fraction(0))

    @property
    def shortfall(self) -> Fraction:
        """The shortfall of all hours, in cents: negative where the rent is more than enough."""
        return sum((hour.shortfall.exact for hour in self.hours), Fraction(0))

    @property
    def short(self) -> int:
        """How many hours pay more than their rent."""
        return sum(hour.shortfall.exact > 0 for hour in self.hours)

    def by_month(self, times: Sequence[Time]) -> Dict[str, Costs]:
        """Each month's hours, by month; that of an hour without a day is empty."""
        months: Dict[str, Costs] = {}
        for (day, _), hour in zip(times, self.hours):
            months.setdefault(day[:7], Costs(self.process, [])).hours.append(hour)
        return dict(sorted(months.items()))


def hour_costs(case: Case, totals: Sequence[HourTotal], process: int) -> Costs:
    """What each hour of a case costs in a process, over the contracts in force on its day; the totals are
    those that it was settled to."""
    if case.terms:
        of_parts = parts(case)
        each = [hour_costs(part.case, [totals[at] for at in part.hours], process) for part in of_parts]
        return Costs(process, in_order(of_parts, [costs.hours for costs in each]))
    hours = case.priced_hours()
    if not case.fits:
        return Costs(process, [_sliced(case, process, *hour) for hour in zip(hours, totals)])
    grid, book = case.grid, case.book_file()
    return Costs(process, [find_shortfall(grid, book, process, hour.period, hour.prices) for hour in hours])


def _sliced(case: Case, process: int, hour: PricedHour, total: HourTotal) -> Shortfall:
    """An hour of a case that the library does not take whole: what its slices paid, and the rent of the
    priced constraints, which is that of a book without contracts. Its shortfall and the payment are added."""
    posted = [k for k, price in enumerate(hour.prices) if price]
    limits, prices = (array("Q", [cells[k] for k in posted]) for cells in (case.limits, hour.prices))
    grid = Grid(1, len(posted), limits, array("q", bytes(8 * len(posted))))
    empty = find_shortfall(grid, write_book(1, []), process, hour.period, prices)
    payment = ExactCents(total.whole, total.parts)
    return Shortfall(payment, empty.rent, _added(payment, empty.shortfall))


def _added(first: ExactCents, second: ExactCents) -> ExactCents:
    carried, parts = divmod(first.parts + second.parts, 10**PART_PLACES)
    return ExactCents(first.whole + second.whole + carried, parts)


def most_short(costs: Costs, times: Sequence[Time]) -> List[Tuple[Time, Shortfall]]:
    """The hours by their shortfalls, the largest first; of equal ones the earlier first."""
    return sorted(zip(times, costs.hours), key=lambda hour: -hour[1].shortfall.exact)
