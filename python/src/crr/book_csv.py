"""Rows with the columns of book.csv: those of book.csv itself, of contracts from hubs and of awards."""

from __future__ import annotations

from pathlib import Path
from typing import Dict, List, NamedTuple, Optional, Tuple, Type

from .case import TAKE_MORE, Term, holder_numbers
from .days import ORDERS, is_date, no_day, plain_day
from .faults import Fault
from .files import Contract
from .inputs import Inputs
from .interface import HOLDER, MAX_CONTRACTS, QUANTITY
from .sheet import Sheet
from .words import BOTH_PERIODS, WEEKENDS, Kind, Period, Word, understood

BOOK = ("CRR_ID", "OWNER", "HEDGE_TYPE", "TIME_OF_USE", "SOURCE", "SINK", "MW")


TERM = ("START_DATE", "END_DATE")  # which may be missing


class Award(NamedTuple):
    """A row: the line that it stands in, its name, its owner's, the contract, without a holder, and its
    term."""

    line: int
    crr_id: str
    owner: str
    contract: Contract
    term: Term = Term()


def node_number(sheet: Sheet, line: int, column: str, name: str, nodes: Dict[str, int], where: str) -> int:
    """The number of a node. A fault is noted, unless there is no node at all, and gives 0."""
    if name not in nodes and nodes:
        sheet.fault(line, column, f"no node {name!r} in {where}", 11)
    return nodes.get(name, 0)


def word_in(sheet: Sheet, line: int, column: str, text: str, words: Type[Word]) -> Optional[Word]:
    """The word that a field has. A fault is noted where it is none."""
    word = understood(words, text)
    if word is None:
        neither = "ON nor OFF" if words is Period else "OBL nor OPT"
        is_both = words is Period and text.upper() in BOTH_PERIODS
        advice = "; split such a contract into an ON and an OFF row" if is_both else ""
        if words is Period and text.upper() in WEEKENDS:
            advice = ": Saturday's peak hours are ON here and Sunday's OFF, so no row has both"
        sheet.fault(line, column, f"{text!r} is neither {neither}{advice}", 17)
    return word


def read_award(
    sheet: Sheet,
    line: int,
    row: List[str],
    nodes: Dict[str, int],
    where: str = "the grid",
    hubs: Optional[Dict[str, int]] = None,
    dates: str = ORDERS[0],
) -> Award:
    """A row's owner and terms; its name is the caller's to look at. With `hubs` the source is a hub's number.
    Each fault is noted."""
    crr_id, owner, kind, period, source, sink, megawatts = (row[sheet.at[column]] for column in BOOK)
    sheet.name_in(line, "OWNER", owner)
    if hubs is None:
        start = node_number(sheet, line, "SOURCE", source, nodes, where)
    else:
        start = hubs.get(source, 0)
        if source not in hubs and hubs:
            sheet.fault(line, "SOURCE", f"no such hub: {source!r}")
    end = node_number(sheet, line, "SINK", sink, nodes, where)
    is_kind = word_in(sheet, line, "HEDGE_TYPE", kind, Kind)
    is_period = word_in(sheet, line, "TIME_OF_USE", period, Period)
    quantity = sheet.figure(line, sheet.at["MW"], megawatts, QUANTITY)
    contract = Contract(is_kind or 0, is_period or 0, 0, start, end, quantity)
    return Award(line, crr_id, owner, contract, _read_term(sheet, line, row, dates))


def _read_term(sheet: Sheet, line: int, row: List[str], dates: str) -> Term:
    """The first and last day of a row; a fault is noted where one is no day, or the last comes first."""
    days = {}
    for column, at in sheet.also.items():
        day = plain_day(row[at], dates)
        days[column] = day if is_date(day) else ""
        if days[column] != day:
            sheet.fault(line, column, no_day(day))
    start, end = (days.get(column, "") for column in TERM)
    if start and end and end < start:
        sheet.fault(line, "END_DATE", f"{end} comes before {start}")
    return Term(start, end)


def read_awards(
    sheet: Sheet,
    nodes: Dict[str, int],
    where: str = "the grid",
    hubs: Optional[Dict[str, int]] = None,
    dates: str = ORDERS[0],
) -> List[Award]:
    """All rows of a sheet whose names are all different."""
    if len(sheet.at) < len(BOOK):
        return []
    names: Dict[str, int] = {}
    awards = []
    for line, row in sheet.rows():
        sheet.new_name(line, "CRR_ID", row[sheet.at["CRR_ID"]], names)
        awards.append(read_award(sheet, line, row, nodes, where, hubs, dates))
    return awards


def read_book(
    path: Path,
    nodes: Dict[str, int],
    known: Dict[int, str],
    any_size: bool,
    faults: List[Fault],
    inputs: Inputs = None,
    dates: str = ORDERS[0],
) -> Tuple[List[Contract], List[str], Dict[int, str], List[Term]]:
    """The contracts of book.csv, their names, the names of holders by number, and the contracts' terms, none
    where none has a day. Holders keep the numbers that are known."""
    sheet = Sheet(path, BOOK, faults, name=path.name, inputs=inputs, may=TERM)
    awards = read_awards(sheet, nodes, "factors.csv", dates=dates)
    if len(awards) > MAX_CONTRACTS and not any_size:
        text = f"more than {MAX_CONTRACTS} contracts{TAKE_MORE}"
        sheet.fault(awards[MAX_CONTRACTS].line, "CRR_ID", text, 10)
    numbers = holder_numbers([award.owner for award in awards], known)
    too_many = next((award.line for award in awards if numbers[award.owner] > HOLDER.high), None)
    if too_many is not None and not any_size:
        sheet.fault(too_many, "OWNER", f"more than {HOLDER.high + 1} owners{TAKE_MORE}", 18)
    book = [award.contract._replace(holder=numbers[award.owner]) for award in awards]
    holders = {number: name for name, number in numbers.items() if name != str(number)}
    terms = [award.term for award in awards]
    return book, [award.crr_id for award in awards], holders, terms if any(map(any, terms)) else []
