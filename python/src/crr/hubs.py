"""The commands on trading hubs: hub-mcc, hub-add."""

from __future__ import annotations

from dataclasses import replace
from pathlib import Path
from typing import Dict, List, Sequence

from .book_csv import BOOK, Award
from .case import NARROW_ENDS, Case, Names, Term
from .command import FOLDER, FORCE, PASSES, Answer, command, counted, objects, reads, writes
from .faults import Fault, raise_any
from .files import add_hub_contract, read_book, write_book
from .hubs_csv import Hub, read_hub_contracts, read_hubs
from .interface import WIDE
from .native import Refused
from .opening import judged_hours, opened, owner_numbers, rounded_data, rounded_words, write_like
from .reading import HANDING_ON, READING, Reading
from .results import mcc_dollars
from .settlement import find_hub_mcc
from .sheet import Sheet
from .to_csv import book_row, csv_text
from .words import TIMES_OF_USE

HUBS = reads("hubs", "a CSV file HUB,NODE_ID,PERCENT")
HUB_MCC = ("OPR_DT", "OPR_HR", "TIME_OF_USE", "HUB", "MCC")


@command(
    "hub-mcc", "the marginal cost of congestion of trading hubs, hour by hour", FOLDER, *READING, HUBS
)
def hub_mcc(folder: Path, hubs: Path, reading: Reading) -> Answer:
    """The MCC of each hub of a file in each hour."""
    case = opened(folder, reading, terms=True)
    faults: List[Fault] = []
    of_file = read_hubs(hubs, case.names.nodes, faults)
    raise_any(faults)
    grid, hours = case.grid, judged_hours(case, reading)
    rows = [
        (
            *(hour.day, hour.hour or "", TIMES_OF_USE[hour.period], name),
            mcc_dollars(find_hub_mcc(grid, hour.prices, hub.nodes, hub.weights)),
        )
        for hour in hours
        for name, hub in of_file.items()
    ]
    note = f"{counted(len(of_file), 'hub')}, {counted(len(hours), 'hour')}{rounded_words(case)}\n"
    data: Dict[str, object] = {"mcc": objects(HUB_MCC, rows), **rounded_data(case)}
    return Answer(PASSES, csv_text(HUB_MCC, rows), data, note)


def _book_for(case: Case, rows: Sequence[Award], hubs: Sequence[Hub]) -> bytes:
    """The book's file, in the wide form where a node of a hub, or a sink, needs it."""
    far = any(max(row.contract.sink, *hubs[row.contract.source].nodes) >= NARROW_ENDS for row in rows)
    return write_book(len(case.names.nodes), case.book, WIDE) if far else case.book_file()


def _grown(case: Case, sheet: Sheet, rows: Sequence[Award], hubs: Sequence[Hub]) -> Case:
    """The case with every row's contracts behind those of the book. A contract is called by its row's name
    and its node's, and has its row's term."""
    names, owners = case.names, owner_numbers(case, sheet, [(row.line, row.owner) for row in rows])
    raise_any(sheet.faults)
    book, nodes = _book_for(case, rows, hubs), len(names.nodes)
    ids, taken = list(names.contracts), set(names.contracts)
    terms = case.terms or [Term()] * len(case.book)
    for row in rows:
        kind, period, _, place, sink, quantity = row.contract
        hub = hubs[place]
        try:
            given = (kind, period, owners[row.owner], hub.nodes, hub.weights, sink, quantity)
            book = add_hub_contract(nodes, book, *given)
        except Refused as refused:  # for too many contracts: all else was looked at
            sheet.fault(row.line, "CRR_ID", refused.meaning, refused.number)
            break
        added = read_book(nodes, book)[len(ids) :]
        new = [f"{row.crr_id} {names.nodes[contract.source]}" for contract in added]
        for crr_id in (crr_id for crr_id in new if crr_id in taken):
            sheet.fault(row.line, "CRR_ID", f"{crr_id} occurs twice")
        ids += new
        taken.update(new)
        terms = terms + [row.term] * len(new)
    raise_any(sheet.faults)
    holders = {**names.holders, **{number: name for name, number in owners.items() if name != str(number)}}
    grown = case.with_book(book, Names(names.nodes, names.constraints, ids, holders))
    return replace(grown, terms=terms if any(map(any, terms)) else [])


@command(
    "hub-add",
    "add contracts from trading hubs to the book, as contracts from their nodes",
    FOLDER,
    *HANDING_ON,
    HUBS,
    reads("contracts", "a CSV file like book.csv, with hubs for sources"),
    writes("a folder", required=True),
    FORCE,
)
def hub_add(folder: Path, hubs: Path, contracts: Path, out: Path, reading: Reading, force: bool) -> Answer:
    """Adds contracts from hubs to a book, as contracts from their nodes, and writes the whole case to another
    folder in the form that it had."""
    case = opened(folder, reading.handed_on, terms=True)
    faults: List[Fault] = []
    of_file = read_hubs(hubs, case.names.nodes, faults)
    sheet, rows = read_hub_contracts(contracts, of_file, case.names.nodes, faults, reading.dates)
    raise_any(faults)
    grown = _grown(case, sheet, rows, list(of_file.values()))
    write_like(grown, out, force)
    numbers = range(len(case.book), len(grown.book))
    added = [book_row(grown.names, grown.names.contracts[number], grown.book[number]) for number in numbers]
    growth = f"{counted(len(rows), 'hub contract')} added as {counted(len(added), 'contract')}"
    data: Dict[str, object] = {"out": str(out), "hub_contracts": len(rows), "added": objects(BOOK, added)}
    data["contracts"] = len(grown.book)
    return Answer(PASSES, f"{out}: {growth}, {counted(len(grown.book), 'contract')} in all\n", data)
