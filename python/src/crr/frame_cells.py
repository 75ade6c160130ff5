"""DataFrames as the texts of CSV files, each figure exact: what is in a frame goes through the reader that
files go through, and a fault is told by the frame and the row's label."""

from __future__ import annotations

import io
import math
import numbers
from datetime import date, datetime
from decimal import Decimal
from fractions import Fraction
from typing import Any, Dict, Iterable, List, Optional, Sequence

from .decimals import decimal, whole
from .faults import Fault
from .interface import Unit
from .to_csv import csv_text


def is_missing(value: object) -> bool:
    """Whether a cell is empty: None, NaN, NaT or pandas' NA."""
    if value is None or type(value).__name__ in ("NaTType", "NAType"):
        return True
    return isinstance(value, (numbers.Real, Decimal)) and bool(value != value)


def half_away(number: Fraction) -> int:
    """The nearest whole number, a half away from zero."""
    size = math.floor(abs(number) + Fraction(1, 2))
    return size if number >= 0 else -size


def units_of(value: Any, places: int) -> Optional[int]:
    """A figure in units of 10^-places, or none where it is no multiple of the unit. A float is one where it
    is the float of that decimal: 0.6 is six tenths."""
    units: int = 10**places  # in one
    if isinstance(value, numbers.Integral):
        return int(value) * units
    if isinstance(value, (Decimal, Fraction)):
        exact = Fraction(value) * units
        return exact.numerator if exact.denominator == 1 else None
    nearest = half_away(Fraction(float(value)) * units)
    return nearest if nearest / units == float(value) else None


def _line_count(text: str) -> int:
    """Lines as the reader counts them: a name may have line ends, which it then refuses."""
    return sum(1 for _ in io.StringIO(text, newline=""))


class Texts:
    """A frame while it is written as CSV: the faults of its cells, and in which lines its rows are."""

    def __init__(self, name: str, frame: Any, rounded: bool) -> None:
        self.name, self.is_rounded = name, rounded
        self.labels: List[object] = list(frame.index)
        self.columns = [str(column) for column in frame.columns]
        self.faults: List[Fault] = []
        self.rounded = 0
        self._lines: Dict[int, int] = {}  # the row of each line that one begins in

    def text(self, rows: Iterable[Sequence[Any]], unit_of: Sequence[Optional[Unit]]) -> str:
        """The frame's text; the heading is its columns."""
        parts = [csv_text(self.columns, ())]
        line = 1 + _line_count(parts[0])
        for number, row in enumerate(rows):
            self._lines[line] = number
            cells = [self._cell(number, at, value, unit_of[at]) for at, value in enumerate(row)]
            parts.append(csv_text(cells, ()))
            line += _line_count(parts[-1])
        return "".join(parts)

    def _cell(self, row: int, at: int, value: Any, unit: Optional[Unit]) -> str:
        if is_missing(value):
            return ""
        if unit is not None and isinstance(value, (numbers.Real, Decimal)) and not isinstance(value, bool):
            return self._figure(row, at, value, unit)
        if unit is not None and self.is_rounded and isinstance(value, str):
            return self._rounded_text(value, unit)
        if isinstance(value, datetime) and value.time() == datetime.min.time():
            value = value.date()
        return value.isoformat() if isinstance(value, date) else str(value)

    def _figure(self, row: int, at: int, value: Any, unit: Unit) -> str:
        if math.isinf(value):
            return str(value)  # which the reader refuses
        exact = units_of(value, unit.places)
        if exact is None and self.is_rounded:
            self.rounded += 1
            number = value if isinstance(value, (Decimal, Fraction)) else float(value)
            exact = half_away(Fraction(number) * 10**unit.places)
        if exact is None:
            text = f"{value} is no multiple of {decimal(1, unit.places)}; rounded=True rounds it"
            self.faults.append(self.fault(row, self.columns[at], text))
            exact = unit.low
        return decimal(exact, unit.places)

    def _rounded_text(self, text: str, unit: Unit) -> str:
        try:
            exact = whole(text.strip(), unit.places, rounded=True)
        except ValueError:
            return text  # which the reader refuses
        self.rounded += len(text.partition(".")[2].rstrip("0 ")) > unit.places
        return decimal(exact, unit.places)

    def fault(self, row: int, column: str, text: str, refusal: int = 0) -> Fault:
        """A fault of a row by its label."""
        return Fault(f"{self.name}.loc[{self.labels[row]!r}, {column!r}]", 0, "", text, refusal)

    def told(self, fault: Fault) -> Fault:
        """A fault of the text as one of the frame."""
        fault = fault._replace(text=fault.text.replace(".csv", ""))
        row = self._lines.get(fault.line)
        if row is not None:
            return self.fault(row, fault.column, fault.text, fault.refusal)
        place = f"{self.name}[{fault.column!r}]" if fault.column else self.name
        return Fault(place, 0, "", fault.text, fault.refusal)
