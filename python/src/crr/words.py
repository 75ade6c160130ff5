"""Kinds, periods and processes by name, and the one table of how each is spelled: in tables, in sentences, on
the command line and in others' files."""

from __future__ import annotations

from enum import IntEnum
from typing import Dict, NamedTuple, Optional, Tuple, Type, TypeVar

from . import interface


class Kind(IntEnum):
    """What a contract is."""

    OBLIGATION = 0
    OPTION = 1


class Period(IntEnum):
    """Which hours."""

    OFF_PEAK = interface.OFF_PEAK
    ON_PEAK = interface.ON_PEAK


class Process(IntEnum):
    """Which allocation or auction: it releases its share of every limit."""

    ANNUAL = interface.ANNUAL
    TIER_LT = interface.TIER_LT
    MONTHLY = interface.MONTHLY


class Spelling(NamedTuple):
    """How a word is spelled. All of them are understood everywhere, in small letters and in capitals."""

    table: str
    sentence: str
    option: str
    others: Tuple[str, ...] = ()


# What markets call peak hours of Monday to Friday: read as ON, which has Saturday's too, and told.
_WEEKDAY = ("PeakWD", "WDPeak", "5x16")

# By number.
SPELLINGS: Dict[Type[IntEnum], Tuple[Spelling, ...]] = {
    Kind: (Spelling("OBL", "obligation", "obl"), Spelling("OPT", "option", "opt")),
    Period: (
        Spelling("OFF", "off-peak", "off", ("offpeak", "off_peak", "off peak", "LLH")),
        Spelling("ON", "on-peak", "on", ("onpeak", "on_peak", "on peak", "peak", "HLH", *_WEEKDAY)),
    ),
    Process: (
        Spelling("annual", "annual", "annual"),
        Spelling("Tier LT", "Tier LT", "lt", ("tier_lt", "tier-lt", "tierlt")),
        Spelling("monthly", "monthly", "monthly"),
    ),
}
BOTH_PERIODS = (
    "24H",
    "24HR",
    "24 HOUR",
    "24-HOUR",
    "FLAT",
)  # what markets call contracts of both: a row for each is needed
WEEKENDS = ("PEAKWE", "WEPEAK", "2X16")  # peak hours of Saturday and Sunday, which no one period has here
WEEKDAYS = tuple(word.upper() for word in _WEEKDAY)

Word = TypeVar("Word", bound=IntEnum)
_NUMBERS: Dict[Tuple[Type[IntEnum], str], int] = {
    (words, text.upper()): number
    for words, spellings in SPELLINGS.items()
    for number, (table, sentence, option, others) in enumerate(spellings)
    for text in (table, sentence, option, *others)
}


def understood(words: Type[Word], text: str) -> Optional[Word]:
    """The word that is spelled so, if one is."""
    number = _NUMBERS.get((words, text.upper()))
    return None if number is None else words(number)


# By number.
HEDGE_TYPES = tuple(spelling.table for spelling in SPELLINGS[Kind])
TIMES_OF_USE = tuple(spelling.table for spelling in SPELLINGS[Period])
PERIODS = tuple(spelling.sentence for spelling in SPELLINGS[Period])
PROCESSES = tuple(spelling.sentence for spelling in SPELLINGS[Process])

Line = Tuple[int, int]  # a period and a process, as a line of a table has them


def line_names(line: Line) -> Tuple[str, str]:
    """ON and annual."""
    period, process = line
    return TIMES_OF_USE[period], PROCESSES[process]


def line_words(line: Line) -> str:
    """ON annual."""
    return " ".join(line_names(line))
