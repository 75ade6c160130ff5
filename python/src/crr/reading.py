"""How the cells of CSV files are read, as the command line asks for it."""

from __future__ import annotations

import argparse
from typing import Any, Dict, NamedTuple

from .command import argument
from .days import ORDERS


class Reading(NamedTuple):
    """Whether prices of more than two decimals, and factors of more than five, are rounded and no faults, in
    which order a date has its parts, and whether an hour's period that contradicts the on-peak rule is taken
    as given."""

    round_prices: bool = False
    round_factors: bool = False
    dates: str = ORDERS[0]
    as_given: bool = False

    @property
    def handed_on(self) -> Reading:
        """For prices that are handed on as they are."""
        return self._replace(as_given=True)


def gathered(given: Dict[str, Any]) -> Dict[str, Any]:
    """A command's arguments by name, with those of reading as one."""
    asked = {name: value for name, value in given.items() if name in Reading._fields}
    others = {name: value for name, value in given.items() if name not in asked}
    return {**others, "reading": Reading(**asked)} if asked else others


def _order(text: str) -> str:
    if text.lower() not in ORDERS:
        raise argparse.ArgumentTypeError(f"{text!r} is none of {', '.join(ORDERS)}")
    return text.lower()


def _as_given(text: str) -> bool:
    """Whether periods are taken as they are given."""
    if text not in _TIMES:
        raise argparse.ArgumentTypeError(f"{text!r} is neither {' nor '.join(_TIMES)}")
    return text == _TIMES[1]


_FACTORS = argument(
    "--round-factors",
    action="store_true",
    help="round factors of more than five decimals to the nearest, a half away from zero",
)
_DATES = argument(
    "--dates",
    type=_order,
    default=ORDERS[0],
    metavar=f"{{{','.join(ORDERS)}}}",
    words=ORDERS,
    help="how dates are written: 2026-07-06, which is always understood, or 07/06/2026 by mdy, "
    "06/07/2026 by dmy",
)
_PRICES = argument(
    "--round-prices",
    action="store_true",
    help="round prices of more than two decimals to the nearest cent, a half away from zero",
)
_TIMES = ("by-rule", "as-given")
_TIME_OF_USE = argument(
    "--time-of-use",
    type=_as_given,
    default=_TIMES[0],
    dest="as_given",
    metavar=f"{{{','.join(_TIMES)}}}",
    words=_TIMES,
    help="an hour's period that contradicts the on-peak rule is a fault, or taken as given; without it, "
    "by-rule",
)
READING = (_PRICES, _FACTORS, _DATES, _TIME_OF_USE)  # of commands that read a whole case
HANDING_ON = (_PRICES, _FACTORS, _DATES)  # of those that hand prices on as they are
READING_BOOK = (_FACTORS, _DATES)  # of those that leave prices alone
