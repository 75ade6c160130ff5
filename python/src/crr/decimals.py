"""Decimals as text and as whole numbers of their smallest unit, exactly: int(float("0.57") * 100) is 56."""

from __future__ import annotations

import re
from functools import lru_cache

from .faults import brief

_MOST_DIGITS = 60
_DECIMAL = re.compile(r"([+-]?)([0-9]*)(?:\.([0-9]*))?")  # not \d, which takes the digits of every script


def whole(text: str, places: int, rounded: bool = False) -> int:
    """'12.5' with 3 places is 12500. Anything that is not exactly such a decimal is a ValueError, in words.

    With `rounded` further decimals are rounded, a half away from zero."""
    match = _DECIMAL.fullmatch(text)
    if not match or not (match[2] or match[3]):
        raise ValueError(_why_not(text, places))
    sign, units, parts = match[1], match[2], match[3] or ""
    kept, rest = parts[:places], parts[places:]
    digits = (units + kept.ljust(places, "0")).lstrip("0")
    if len(digits) > _MOST_DIGITS:  # Python's own limit is a matter of its version
        raise ValueError(f"{brief(text)}: a number of {len(digits) - places:,} digits before the point")
    number = int(digits or "0")
    if rest.strip("0"):
        if not rounded:
            raise ValueError(f"{brief(text)} has more than {places} decimals")
        number += rest[0] >= "5"
    return -number if sign == "-" else number


def _why_not(text: str, places: int) -> str:
    if not text:
        return "empty"
    if "," in text:
        return f"{brief(text)!r}: a decimal point and no thousands separators, please"
    if re.fullmatch(r"[-+.0-9]+[eE][-+0-9]+", text):
        advice = f"format the column as a number with {places} decimals"
        return f"{brief(text)!r}: an exponent may have lost digits; {advice}"
    return f"{brief(text)!r} is not a decimal number"


def nearest(over: int, under: int) -> int:
    """A quotient to the nearest whole number, a half away from zero, as everything here is rounded."""
    size = (2 * abs(over) + under) // (2 * under)
    return -size if over < 0 else size


@lru_cache(maxsize=65536)
def decimal(number: int, places: int) -> str:
    """12500 with 3 places is '12.500'."""
    digits = str(abs(number)).rjust(places + 1, "0")
    sign = "-" if number < 0 else ""
    return f"{sign}{digits[:-places]}.{digits[-places:]}" if places else sign + digits
