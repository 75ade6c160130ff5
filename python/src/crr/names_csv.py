"""names.csv: the names of what the bin files number. `pack` writes it beside them; `unpack` reads it and
hands it on, since holders keep their numbers by it.

TABLE is node, constraint, contract, holder, start, end, hour or form; start and end are the first and the
last day on which a contract is in force, by its number; the one row of an hour tells the day and hour
ending of prices.bin, as 2026-07-01 HE08, and form 0 and 1 whether grid.bin and book.bin are narrow or wide
(none: narrow where they can be).
"""

from __future__ import annotations

from pathlib import Path
from typing import Dict, List, Sequence, Tuple

from .case import FORMS, Names, Term, plain_number
from .days import is_date
from .faults import Fault
from .inputs import Inputs
from .interface import HOLDER
from .sheet import Sheet, is_there

Tables = Dict[str, Dict[int, str]]
HEADING = ("TABLE", "NUMBER", "NAME")
_TERM = ("start", "end")


def read_names(folder: Path, faults: List[Fault], inputs: Inputs = None) -> Tables:
    """Names by table and number; none where the folder has no names.csv. What was read is noted in
    `inputs`."""
    kinds = ("node", "constraint", "contract", "holder", *_TERM, "hour", "form")
    tables: Tables = {table: {} for table in kinds}
    path = folder / "names.csv"
    if not is_there(path):
        return tables
    sheet = Sheet(path, HEADING, faults, name=path.name, inputs=inputs)
    if len(sheet.at) < len(HEADING):
        return tables
    table_at, number_at, name_at = (sheet.at[column] for column in HEADING)
    taken = set()
    for line, row in sheet.rows():
        table, number, name = row[table_at], row[number_at], row[name_at]
        if table not in tables:
            sheet.fault(line, "TABLE", f"{table!r} is none of {', '.join(tables)}")
        elif not (number.isascii() and number.isdigit() and len(number) < 10):
            sheet.fault(line, "NUMBER", f"{number!r} is not a number from 0 on")
        elif table == "holder" and int(number) > HOLDER.high:
            sheet.fault(line, "NUMBER", f"holder {number} is above {HOLDER.high}", HOLDER.refusal)
        elif int(number) in tables[table]:
            sheet.fault(line, "NUMBER", f"{table} {number} occurs twice")
        elif (table, name) in taken and table not in ("form", *_TERM):
            sheet.fault(line, "NAME", f"{table} {name} occurs twice")
        elif table == "holder" and plain_number(name) not in (None, int(number)):
            sheet.fault(line, "NAME", f"{name} stands for holder {name}, not {number}")
        elif table == "form" and (int(number) > 1 or name not in FORMS):
            sheet.fault(line, "NAME", "form 0, the grid's, and 1, the book's, are narrow or wide")
        elif table in _TERM and not is_date(name):
            sheet.fault(line, "NAME", f"{name!r} is not a day, YYYY-MM-DD")
        elif sheet.name_in(line, "NAME", name):
            tables[table][int(number)] = name
            taken.add((table, name))
    return tables


def name_rows(names: Names, hour: str, forms: Sequence[int]) -> List[Tuple[str, int, str]]:
    """The rows of names.csv."""
    rows = [("node", number, name) for number, name in enumerate(names.nodes)]
    rows += [("constraint", number, name) for number, name in enumerate(names.constraints)]
    rows += [("contract", number, name) for number, name in enumerate(names.contracts)]
    rows += [("holder", number, name) for number, name in sorted(names.holders.items())]
    rows += [("form", number, FORMS[form]) for number, form in enumerate(forms) if form]
    return rows + ([("hour", 0, hour)] if hour else [])


def term_rows(terms: Sequence[Term]) -> List[Tuple[str, int, str]]:
    """The rows of names.csv that keep the contracts' terms, which book.bin has no room for."""
    days = [(table, number, day) for number, term in enumerate(terms) for table, day in zip(_TERM, term)]
    return [row for row in days if row[2]]


def terms_of(tables: Tables, contracts: int, faults: List[Fault]) -> List[Term]:
    """The terms of so many contracts; none where no day is told."""
    starts, ends = (tables[table] for table in _TERM)
    beyond = [number for number in (*starts, *ends) if number >= contracts]
    wrong = [number for number in starts if ends.get(number, starts[number]) < starts[number]]
    if beyond:
        text = f"contract {min(beyond)} has a day, and book.bin has {contracts} of them"
        faults.append(Fault("names.csv", 0, "", text))
    if wrong:
        text = f"contract {min(wrong)} ends on {ends[min(wrong)]} and begins on {starts[min(wrong)]}"
        faults.append(Fault("names.csv", 0, "", text))
    if not starts and not ends:
        return []
    return [Term(starts.get(number, ""), ends.get(number, "")) for number in range(contracts)]


def names_of(tables: Tables, nodes: int, constraints: int, contracts: int, faults: List[Fault]) -> Names:
    """The names for so many of each: N0, K0 and the contract's number where there are none. Names that don't
    go with the counts are faults."""
    lists = []
    counts = (("node", nodes, "N"), ("constraint", constraints, "K"), ("contract", contracts, ""))
    for table, count, prefix in counts:
        beyond = [number for number in tables[table] if number >= count]
        names = [tables[table].get(number, f"{prefix}{number}") for number in range(count)]
        if beyond:
            text = f"{table} {min(beyond)} is named, and the bin files have {count} of them"
            faults.append(Fault("names.csv", 0, "", text))
        elif len(set(names)) < count:
            called = f"those that names.csv leaves out are called {prefix}0, {prefix}1, .."
            faults.append(Fault("names.csv", 0, "", f"two of the {table}s have one name; {called}"))
        lists.append(names)
    holders = {number: name for number, name in tables["holder"].items() if name != str(number)}
    return Names(lists[0], lists[1], lists[2], holders)
