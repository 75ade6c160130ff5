"""The hours that there are, and their periods. A day has 24 hours; 23 where the clock is set forward, on
March's second Sunday, and 25 where it is set back, on November's first. An hour's period is the library's, by
the on-peak rule, and so is the number of a month's on-peak hours."""

from __future__ import annotations

from calendar import monthrange
from datetime import date
from typing import Dict, Iterable, List, NamedTuple, Optional, Sequence, Tuple

from .case import Time, hour_name
from .dates import hour_period, month_hours
from .interface import FIRST_YEAR, LAST_YEAR
from .words import PERIODS, TIMES_OF_USE, Period

_SUNDAY = 7
LONGEST_DAY = 25


def hours_in(day: str) -> int:
    """How many hours a day has: they are the hours ending 1 to this number."""
    on = date.fromisoformat(day)
    if on.isoweekday() == _SUNDAY and on.month == 3 and 8 <= on.day <= 14:
        return 23
    if on.isoweekday() == _SUNDAY and on.month == 11 and on.day <= 7:
        return LONGEST_DAY
    return 24


def no_such_hour(day: str, hour: int) -> str:
    """Why a day does not have an hour; nothing where it does."""
    hours = hours_in(day)
    if hour <= hours:
        return ""
    if hours == 23:
        return f"hour {hour}: {day} has 23 hours, its clock is set forward"
    return f"hour {hour}: {day} has 24 hours; the clock is set back on November's first Sunday"


def last_missing(day: str, hours: Iterable[int]) -> str:
    """Why a day of these hours can't be: it has all but hour 24. Nothing where it can."""
    if hours_in(day) == 23 or set(hours) != set(range(1, 24)):
        return ""
    return f"hour 24 of {day} is missing; the clock is set forward on March's second Sunday alone"


def period_of(day: str, hour: int) -> Optional[Period]:
    """An hour's period by the on-peak rule; none where the rule does not reach its year."""
    year, month, number = map(int, day.split("-"))
    return hour_period(year, month, number, hour) if FIRST_YEAR <= year <= LAST_YEAR else None


def contradiction(day: str, hour: int, period: int) -> str:
    """That an hour's period is not the one of the on-peak rule, in words; nothing where it is."""
    rule = period_of(day, hour)
    if rule is None or rule == period:
        return ""
    return f"{TIMES_OF_USE[period]}, and {hour_name(day, hour)} is {PERIODS[rule]}{_why(day, rule)}"


def _why(day: str, rule: int) -> str:
    """Why a day has no on-peak hour, where that is the reason."""
    if rule == Period.ON_PEAK or any(period_of(day, hour) for hour in range(1, LONGEST_DAY)):
        return ""
    return ", a Sunday" if date.fromisoformat(day).isoweekday() == _SUNDAY else ", a holiday"


class Coverage(NamedTuple):
    """A month's hours, as many as were found and as there are, off-peak and on-peak. How many there are of
    each period is not known where the on-peak rule does not reach the year."""

    month: str
    found: Tuple[int, int]
    hours: int
    on_peak: Optional[int]

    @property
    def whole(self) -> bool:
        """Whether every hour was found."""
        return sum(self.found) == self.hours

    @property
    def there(self) -> Tuple[Optional[int], Optional[int]]:
        """How many hours of each period there are."""
        return (None, None) if self.on_peak is None else (self.hours - self.on_peak, self.on_peak)

    @property
    def mark(self) -> str:
        """1 of 744 hours, where some are missing."""
        return "" if self.whole else f"{sum(self.found):,} of {self.hours:,} hours"

    @property
    def words(self) -> str:
        """2026-07: 16 of 416 on-peak and 8 of 328 off-peak hours; not whole."""
        off_peak, on_peak = (
            f"{found:,}{'' if there is None else f' of {there:,}'} {PERIODS[period]}"
            for period, (found, there) in enumerate(zip(self.found, self.there))
        )
        return f"{self.month}: {on_peak} and {off_peak} hours{'' if self.whole else '; not whole'}"


def _hours_of(month: str) -> int:
    year, number = map(int, month.split("-"))
    return sum(hours_in(f"{month}-{day:02}") for day in range(1, monthrange(year, number)[1] + 1))


def coverage(times: Sequence[Time], periods: Iterable[int]) -> Dict[str, Coverage]:
    """Each month's hours by month, from the time and the period of each; an hour without a day is of none."""
    found: Dict[str, List[int]] = {}
    for (day, _), period in zip(times, periods):
        if day:
            found.setdefault(day[:7], [0, 0])[period] += 1
    months = {}
    for month, (off_peak, on_peak) in sorted(found.items()):
        year, number = map(int, month.split("-"))
        known = month_hours(year, number) if FIRST_YEAR <= year <= LAST_YEAR else None
        months[month] = Coverage(month, (off_peak, on_peak), _hours_of(month), known)
    return months


COVERAGE = ("MONTH", "TIME_OF_USE", "HOURS", "OF_HOURS")


def coverage_rows(months: Dict[str, Coverage]) -> List[Tuple[object, ...]]:
    """A row for each month and period."""
    return [
        (month.month, TIMES_OF_USE[period], month.found[period], "" if there is None else there)
        for month in months.values()
        for period, there in enumerate(month.there)
    ]


def coverage_words(months: Dict[str, Coverage]) -> str:
    """A line for each month."""
    return "".join(f"{month.words}\n" for month in months.values())
