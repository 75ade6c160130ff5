"""Days as text, YYYY-MM-DD, so that they sort as they follow, and hours by their number, the hour ending."""

from __future__ import annotations

import argparse
import re
from datetime import date
from functools import lru_cache

ORDERS = ("ymd", "mdy", "dmy")  # of a date's year, month and day
_DAY = re.compile(r"[0-9]{4}-[0-9]{2}-[0-9]{2}")
_OTHER = re.compile(r"([0-9]{1,2})([/.-])([0-9]{1,2})\2([0-9]{4})")
_HOUR = re.compile(r"HE ?([0-9]{1,2})|([0-9]{1,2}):00", re.IGNORECASE)


def is_date(day: str) -> bool:
    """Whether a text is a day, YYYY-MM-DD."""
    if not _DAY.fullmatch(day):
        return False
    try:
        date.fromisoformat(day)
        return True
    except ValueError:
        return False


@lru_cache(maxsize=4096)
def plain_day(text: str, order: str) -> str:
    """A day as YYYY-MM-DD where it is written in an order of its parts, as 07/06/2026 is; else as it is."""
    match = _OTHER.fullmatch(text) if order != ORDERS[0] else None
    if not match:
        return text
    month, day = (match[1], match[3]) if order == "mdy" else (match[3], match[1])
    plain = f"{match[4]}-{month:>02}-{day:>02}"
    return plain if is_date(plain) else text


def no_day(text: str) -> str:
    """Why a text is no day, and what would make it one."""
    advice = "; --dates mdy or --dates dmy tells which part is the month" if _OTHER.fullmatch(text) else ""
    return f"{text!r} is not a day, YYYY-MM-DD{advice}"


@lru_cache(maxsize=256)
def plain_hour(text: str) -> str:
    """The number of an hour ending that is written as HE08 or 08:00; else the text as it is."""
    match = _HOUR.fullmatch(text)
    return (match[1] or match[2]).lstrip("0") or "0" if match else text


def a_day(text: str) -> str:
    """A day of the command line."""
    if not is_date(text):
        raise argparse.ArgumentTypeError(f"{text!r} is not a day, YYYY-MM-DD")
    return text
