"""A folder of CSV files as a case. Every fault is found, not only the first, with its file, line and column.

constraints.csv  CONSTRAINT_ID,LIMIT_MW
factors.csv      NODE_ID, and a column for each constraint
book.csv         CRR_ID,OWNER,HEDGE_TYPE,TIME_OF_USE,SOURCE,SINK,MW, and START_DATE,END_DATE where there are
prices.csv       OPR_DT,OPR_HR,TIME_OF_USE,CONSTRAINT_ID,SHADOW_PRICE
names.csv        TABLE,NUMBER,NAME

The last two may be missing, and of prices.csv TIME_OF_USE: the on-peak rule gives an hour's period. A price
that is not listed is 0; names.csv has the numbers that holders had before.
"""

from __future__ import annotations

import re
from array import array
from pathlib import Path
from typing import Dict, List, Optional, Sequence, Set, Tuple, Union

from .blocks import MEMORY, Blocks
from .book_csv import read_book, word_in
from .case import FORMS, TAKE_MORE, Case, Names, PricedHour, book_form, grid_form
from .clock import contradiction, last_missing, no_such_hour, period_of
from .days import ORDERS, is_date, no_day, plain_day, plain_hour
from .decimals import whole
from .faults import Fault, raise_any
from .files import Contract
from .inputs import Input
from .interface import FIRST_YEAR, LAST_YEAR, LIMIT, MAX_CONSTRAINTS, MAX_NODES, SHADOW_PRICE, SHIFT_FACTOR
from .names_csv import read_names
from .reading import Reading
from .sheet import Sheet, is_there
from .streamed import StreamedSheet, is_large
from .words import TIMES_OF_USE, Period

_HOUR = re.compile(r"0?[1-9]|1[0-9]|2[0-5]")  # hour ending; the day whose clock is set back has 25

CONSTRAINTS = ("CONSTRAINT_ID", "LIMIT_MW")
PRICES = ("OPR_DT", "OPR_HR", "TIME_OF_USE", "CONSTRAINT_ID", "SHADOW_PRICE")
_GIVEN = "TIME_OF_USE"  # may be missing
_NEEDED = tuple(column for column in PRICES if column != _GIVEN)
_WAYS = "correct it, leave the column out, or --time-of-use as-given"


class Loaded:
    """A folder while it is read: the tables so far and every fault found."""

    def __init__(self, folder: Path, any_size: bool, reading: Reading, memory: int) -> None:
        self.folder, self.any_size, self.reading, self.memory = folder, any_size, reading, memory
        self.faults: List[Fault] = []
        self.inputs: List[Input] = []
        self.rounded = self.rounded_factors = 0
        self.constraints_read = False  # else nothing is said of names that would not be found
        self.constraints: Dict[str, int] = {}
        self.nodes: Dict[str, int] = {}
        self.limits = array("Q")
        self.factors = array("q")
        self.blocks: Optional[Blocks] = None  # of a large factors.csv

    def count(
        self, sheet: Sheet, line: int, column: str, count: int, most: int, what: str, refusal: int
    ) -> None:
        """A fault at the first row beyond the library's size."""
        if not self.any_size and count == most + 1:
            sheet.fault(line, column, f"more than {most} {what}{TAKE_MORE}", refusal)


def load(
    folder: Union[str, Path],
    any_size: bool = False,
    round_prices: bool = False,
    prices: bool = True,
    round_factors: bool = False,
    dates: str = ORDERS[0],
    as_given: bool = False,
    memory: int = MEMORY,
) -> Tuple[Case, int]:
    """The case of a folder, and how many of its prices were rounded. Raises `Faults`.

    With `any_size` counts above the library's are taken, for slices; a large factors.csv is then streamed,
    and at most so many bytes of `memory` hold its factors. With `round_prices` a price of more than two
    decimals is rounded to the nearest cent, a half away from zero; it is a fault otherwise. `round_factors`
    does so with factors of more than five. `dates` is the order of a date's parts, "mdy" or "dmy" where they
    are not YYYY-MM-DD. Without `prices` prices.csv is not looked at. With `as_given` a TIME_OF_USE of
    prices.csv is taken as it stands; it is a fault otherwise where the on-peak rule says the other one."""
    reading = Reading(round_prices, round_factors, dates, as_given)
    case = _read(Loaded(Path(folder), any_size, reading, memory), prices)
    return case, case.rounded


def _read(loaded: Loaded, prices: bool) -> Case:
    """The case of a folder, file by file; all faults are raised together."""
    _read_constraints(loaded)
    _read_factors(loaded)
    tables = read_names(loaded.folder, loaded.faults, loaded.inputs)
    known, noting = tables["holder"], (loaded.any_size, loaded.faults, loaded.inputs, loaded.reading.dates)
    book, ids, holders, terms = read_book(loaded.folder / "book.csv", loaded.nodes, known, *noting)
    hours = _read_prices(loaded) if prices and is_there(loaded.folder / "prices.csv") else []
    raise_any(loaded.faults)
    holders = {**_without_contract(known, book, holders), **holders}
    names = Names(list(loaded.nodes), list(loaded.constraints), ids, holders)
    forms = {number: FORMS.index(name) for number, name in tables["form"].items()}
    return Case(
        names,
        loaded.limits,
        loaded.factors,
        book,
        hours,
        forms.get(0, grid_form(len(names.nodes))),
        forms.get(1, book_form(book)),
        loaded.inputs,
        rounded=loaded.rounded,
        rounded_factors=loaded.rounded_factors,
        terms=terms,
        blocks=loaded.blocks,
    )


def _without_contract(
    known: Dict[int, str], book: List[Contract], holders: Dict[int, str]
) -> Dict[int, str]:
    """The holders that names.csv names beside those of the book."""
    taken, names = {contract.holder for contract in book}, set(holders.values())
    return {
        number: name
        for number, name in known.items()
        if number not in taken and name not in names and name != str(number)
    }


def _read_constraints(loaded: Loaded) -> None:
    sheet = Sheet(
        loaded.folder / "constraints.csv",
        CONSTRAINTS,
        loaded.faults,
        name="constraints.csv",
        inputs=loaded.inputs,
    )
    if len(sheet.at) < 2:
        return
    loaded.constraints_read = True
    name_at, limit_at = sheet.at["CONSTRAINT_ID"], sheet.at["LIMIT_MW"]
    for line, fields in sheet.rows():
        if sheet.new_name(line, "CONSTRAINT_ID", fields[name_at], loaded.constraints):
            loaded.limits.append(sheet.figure(line, limit_at, fields[limit_at], LIMIT))
            loaded.count(sheet, line, "CONSTRAINT_ID", len(loaded.limits), MAX_CONSTRAINTS, "constraints", 3)


def _factor_columns(loaded: Loaded, sheet: Sheet) -> List[int]:
    """Where each constraint's factors stand: every column but the first is a constraint's."""
    places: Dict[str, int] = {}
    for at, name in enumerate(sheet.heading[1:], start=1):
        if name not in loaded.constraints:
            loaded.faults.append(
                Fault(sheet.name, 1, sheet.column(at), "no such constraint in constraints.csv")
            )
        elif name in places:
            loaded.faults.append(Fault(sheet.name, 1, name, "the constraint's column occurs twice"))
        places.setdefault(name, at)
    for name in loaded.constraints:
        if name not in places:
            loaded.faults.append(Fault(sheet.name, 1, name, "the constraint's column is missing"))
    return [places[name] for name in loaded.constraints if name in places]


class _Figures(Dict[str, int]):
    """Factors by their texts: of millions of fields few are different. What is none is a ValueError."""

    def __missing__(self, text: str) -> int:
        number = whole(text, SHIFT_FACTOR.places)
        if not SHIFT_FACTOR.low <= number <= SHIFT_FACTOR.high:
            raise ValueError(text)
        if len(self) < 10**6:
            self[text] = number
        return number


def _factor_row(
    sheet: Sheet, line: int, fields: List[str], columns: Sequence[int], figures: _Figures, rounded: bool
) -> List[int]:
    """A node's factors in the order of constraints. A fault is noted for each that is none."""
    try:
        return [figures[fields[at]] for at in columns]
    except ValueError:
        return [sheet.figure(line, at, fields[at], SHIFT_FACTOR, rounded) for at in columns]


def _read_factors(loaded: Loaded) -> None:
    path = loaded.folder / "factors.csv"
    large = loaded.any_size and is_large(path)
    sheet = (StreamedSheet if large else Sheet)(
        path, ("NODE_ID",), loaded.faults, first=True, name="factors.csv", inputs=loaded.inputs
    )
    if not sheet.at:
        return
    columns = _factor_columns(loaded, sheet) if loaded.constraints_read else []
    if large and len(columns) == len(loaded.limits):
        loaded.blocks = Blocks(loaded.limits, loaded.memory)
    line, figures = 1, _Figures()
    for line, fields in sheet.rows():
        if sheet.new_name(line, "NODE_ID", fields[0], loaded.nodes):
            row = _factor_row(sheet, line, fields, columns, figures, loaded.reading.round_factors)
            if loaded.blocks is None:
                loaded.factors.extend(row)
            elif not loaded.faults:
                loaded.blocks.add(row)
            loaded.count(sheet, line, "NODE_ID", len(loaded.nodes), MAX_NODES, "nodes", 2)
    if loaded.blocks is not None and not loaded.faults:
        loaded.blocks.close()
    loaded.rounded_factors = sheet.rounded
    if not loaded.nodes:
        sheet.fault(line, "NODE_ID", "no node", 2)


def _read_prices(loaded: Loaded) -> List[PricedHour]:
    sheet = Sheet(
        loaded.folder / "prices.csv",
        _NEEDED,
        loaded.faults,
        name="prices.csv",
        inputs=loaded.inputs,
        may=(_GIVEN,),
    )
    if len(sheet.at) < len(_NEEDED):
        return []
    day_at, hour_at, constraint_at, price_at = (sheet.at[column] for column in _NEEDED)
    period_at = sheet.also.get(_GIVEN)
    times = _Times(sheet, len(loaded.constraints), loaded.reading.as_given)
    listed: Set[Tuple[str, int, int]] = set()
    for line, row in sheet.rows():
        time = plain_day(row[day_at], loaded.reading.dates), plain_hour(row[hour_at])
        hour = times.hour(line, *time, "" if period_at is None else row[period_at])
        name, price = row[constraint_at], row[price_at]
        if hour is None or not (name or price):  # a row of neither tells an hour without congestion
            continue
        k = loaded.constraints.get(name)
        if k is None:
            if loaded.constraints_read:
                sheet.fault(line, "CONSTRAINT_ID", f"no constraint {name!r} in constraints.csv")
            continue
        key = (hour.day, hour.hour, k)
        if key in listed:
            sheet.fault(line, "CONSTRAINT_ID", f"{name} occurs twice in this hour")
        listed.add(key)
        hour.prices[k] = sheet.figure(line, price_at, price, SHADOW_PRICE, loaded.reading.round_prices)
    loaded.rounded = sheet.rounded
    times.check_days()
    return times.in_order()


class _Times:
    """The hours of prices.csv, each made when its first row comes."""

    def __init__(self, sheet: Sheet, constraints: int, as_given: bool) -> None:
        self._sheet, self._constraints, self._as_given = sheet, constraints, as_given
        self._hours: Dict[Tuple[str, int], PricedHour] = {}
        self._lines: Dict[Tuple[str, int], int] = {}  # of each hour's first row
        self._seen: Dict[Tuple[str, str, str], Optional[PricedHour]] = {}

    def hour(self, line: int, day: str, hour: str, time_of_use: str) -> Optional[PricedHour]:
        """The hour of a row, or none where its time is a fault."""
        key = (day, hour, time_of_use)
        if self._seen.get(key) is None:
            self._seen[key] = self._new(line, day, hour, time_of_use)
        return self._seen[key]

    def _new(self, line: int, day: str, hour: str, time_of_use: str) -> Optional[PricedHour]:
        if not self._is_time(line, day, hour):
            if time_of_use:
                word_in(self._sheet, line, "TIME_OF_USE", time_of_use, Period)  # told along with it
            return None
        number = int(hour or 0)
        period = self._period(line, day, number, time_of_use)
        if period is None:
            return None
        alone = not number or ("", 0) in self._hours
        if alone and self._hours and (day, number) not in self._hours:
            self._sheet.fault(line, "OPR_DT", "an hour without day and hour is the only one of its file")
            return None
        fresh = PricedHour(day, number, period, array("Q", bytes(8 * self._constraints)))
        known = self._hours.setdefault((day, number), fresh)
        self._lines.setdefault((day, number), line)
        if known.period != period:
            given = time_of_use or TIMES_OF_USE[period]
            self._sheet.fault(
                line, "TIME_OF_USE", f"{given}, and the other one in an earlier row of this hour"
            )
            return None
        return known

    def _period(self, line: int, day: str, hour: int, time_of_use: str) -> Optional[Period]:
        """The period of a row's hour: as it is given, or by the on-peak rule. One that contradicts the rule
        is a fault, unless it is to be taken as given. The hour is 0 where there is none."""
        if time_of_use:
            period = word_in(self._sheet, line, "TIME_OF_USE", time_of_use, Period)
            wrong = "" if period is None or not hour or self._as_given else contradiction(day, hour, period)
            if wrong:
                self._sheet.fault(line, "TIME_OF_USE", f"{wrong}; {_WAYS}")
            return None if wrong else period
        rule = period_of(day, hour) if hour else None
        if rule is None:
            reach = f"the on-peak rule reaches from {FIRST_YEAR} to {LAST_YEAR}"
            needed = reach if hour else "an hour without day and hour has its period from there alone"
            self._sheet.fault(line, "TIME_OF_USE", f"ON or OFF is needed: {needed}")
        return rule

    def _is_time(self, line: int, day: str, hour: str) -> bool:
        if not day and not hour:
            return True
        right = True
        if not is_date(day):
            self._sheet.fault(line, "OPR_DT", no_day(day))
            right = False
        if not _HOUR.fullmatch(hour):
            self._sheet.fault(line, "OPR_HR", f"{hour!r} is not an hour ending, 1 to 25")
            right = False
        if right and no_such_hour(day, int(hour)):
            self._sheet.fault(line, "OPR_HR", no_such_hour(day, int(hour)))
            right = False
        return right

    def check_days(self) -> None:
        """A fault for each day that has all hours but the last."""
        days: Dict[str, List[int]] = {}
        for day, hour in self._hours:
            days.setdefault(day, []).append(hour)
        for day, hours in days.items():
            missing = last_missing(day, hours) if day else ""
            if missing:
                self._sheet.fault(self._lines[day, 23], "OPR_HR", missing)

    def in_order(self) -> List[PricedHour]:
        """All hours by day and hour."""
        return [self._hours[key] for key in sorted(self._hours)]
