"""The operations of a running test as a CSV file, by names.

OPERATION,TIER,CRR_ID,OWNER,HEDGE_TYPE,TIME_OF_USE,SOURCE,SINK,MW

`add` has an award, in the columns of book.csv; `mark` and `return` have a tier, 1, 2, 3 or LT. The columns of
the one are empty in the rows of the other.
"""

from __future__ import annotations

from pathlib import Path
from typing import Dict, List, NamedTuple, Sequence, Tuple

from .book_csv import BOOK, TERM, read_award
from .faults import Fault
from .files import Contract
from .interface import MARK_LT
from .running import TIERS
from .sheet import Sheet

OPERATIONS = ("OPERATION", "TIER", *BOOK)
ADD, MARK, RETURN = "add", "mark", "return"
_TIERS: Dict[str, int] = {**{name: number for number, name in TIERS.items()}, str(MARK_LT): MARK_LT}
_NOTHING = Contract(0, 0, 0, 0, 0, 0)


class Operation(NamedTuple):
    """An operation and the line that it stands in: an award by its name, its owner and its terms, without a
    holder; or a tier."""

    line: int
    what: str
    tier: int = 0
    crr_id: str = ""
    owner: str = ""
    award: Contract = _NOTHING


def _award(sheet: Sheet, line: int, row: List[str], nodes: Dict[str, int]) -> Operation:
    sheet.name_in(line, "CRR_ID", row[sheet.at["CRR_ID"]])
    award = read_award(sheet, line, row, nodes)
    if row[sheet.at["TIER"]]:
        sheet.fault(line, "TIER", "an award has no tier: a row of its own marks the tier")
    if any(award.term):
        sheet.fault(line, "CRR_ID", "awards are tried together: one with a first or last day can't be")
    return Operation(line, ADD, 0, award.crr_id, award.owner, award.contract)


def _tier(sheet: Sheet, line: int, row: List[str], what: str) -> Operation:
    text = row[sheet.at["TIER"]]
    if text.upper() not in _TIERS:
        none = f"{text!r} is none of the tiers 1, 2, 3 and LT"
        sheet.fault(line, "TIER", none if text else "empty", 20 if text else 0)
    for column in BOOK:
        if row[sheet.at[column]]:
            sheet.fault(line, column, f"{what} has a tier and no award")
    return Operation(line, what, _TIERS.get(text.upper(), 0))


def read_operations(path: Path, nodes: Sequence[str], faults: List[Fault]) -> Tuple[Sheet, List[Operation]]:
    """The operations of a file, and the sheet, for faults that are found later. Every fault is noted."""
    sheet = Sheet(path, OPERATIONS, faults, may=TERM)
    operations: List[Operation] = []
    if len(sheet.at) < len(OPERATIONS):
        return sheet, operations
    numbers = {name: number for number, name in enumerate(nodes)}
    for line, row in sheet.rows():
        what = row[sheet.at["OPERATION"]].lower()
        if what == ADD:
            operations.append(_award(sheet, line, row, numbers))
        elif what in (MARK, RETURN):
            operations.append(_tier(sheet, line, row, what))
        else:
            sheet.fault(
                line, "OPERATION", f"{row[sheet.at['OPERATION']]!r} is neither add nor mark nor return"
            )
    return sheet, operations
