"""The calendar of on-peak hours: the hours of a month, the period of an hour, the weekday of a date, the date
one month later. Years 2010 to 2037."""

from __future__ import annotations

from ctypes import c_uint64
from datetime import date
from functools import lru_cache, reduce
from math import gcd

from .interface import FIRST_YEAR, LAST_YEAR
from .native import Entry
from .words import Period

_month_hours = Entry("crr_month_hours")
_hour_period = Entry("crr_hour_period")
_weekday = Entry("crr_weekday")
_month_later = Entry("crr_month_later")


def month_hours(year: int, month: int) -> int:
    """The on-peak hours of a month."""
    hours = c_uint64()
    _month_hours(year, month, hours)
    return hours.value


def hour_period(year: int, month: int, day: int, hour_ending: int) -> Period:
    """The period of an hour, by the on-peak rule. Hours ending are 1 to 24, and 25 for the hour that comes
    twice on the day whose clock is set back."""
    period = c_uint64()
    _hour_period(year, month, day, hour_ending, period)
    return Period(period.value)


@lru_cache(maxsize=None)
def hours_a_day() -> int:
    """The on-peak hours of a day that has any. All such days have as many, so it is the largest number that
    divides the hours of every month."""
    months = ((year, month) for year in range(FIRST_YEAR, LAST_YEAR + 1) for month in range(1, 13))
    return reduce(gcd, (month_hours(year, month) for year, month in months))


def weekday(year: int, month: int, day: int) -> int:
    """The weekday of a date, 1 (Monday) to 7 (Sunday), as `date.isoweekday` numbers them."""
    number = c_uint64()
    _weekday(year, month, day, number)
    return number.value


def month_later(year: int, month: int, day: int) -> date:
    """The date one month later, the day cut to the month's last."""
    later_year, later_month, later_day = c_uint64(), c_uint64(), c_uint64()
    _month_later(year, month, day, later_year, later_month, later_day)
    return date(later_year.value, later_month.value, later_day.value)
