"""The commands on a book: remap, in-force, market, holder."""

from __future__ import annotations

from dataclasses import replace
from pathlib import Path
from typing import Dict, List, Optional, Sequence, Tuple

from .book_csv import BOOK, node_number
from .case import Case, Names, plain_number
from .command import (
    FOLDER,
    FORCE,
    PASSES,
    Answer,
    a_path,
    argument,
    command,
    counted,
    objects,
    reads,
    writes,
)
from .days import a_day
from .faults import Fault, Faults, raise_any
from .files import remap_book
from .interface import HOLDER
from .opening import counts, opened, write_beside, write_like
from .reading import HANDING_ON, Reading
from .sheet import Sheet
from .terms import on_day
from .to_csv import book_row, csv_text
from .views import Held, read_holder_view, write_holder_view, write_market_view


def _pairs(path: Path, nodes: Sequence[str]) -> Tuple[List[int], List[int]]:
    """Old and new node numbers of a file OLD_NODE,NEW_NODE."""
    faults: List[Fault] = []
    sheet = Sheet(path, ("OLD_NODE", "NEW_NODE"), faults)
    numbers = {name: number for number, name in enumerate(nodes)}
    lists: Dict[str, List[int]] = {column: [] for column in sheet.at}
    for line, row in sheet.rows():
        for column, at in sheet.at.items():
            lists[column].append(node_number(sheet, line, column, row[at], numbers, "the grid"))
    raise_any(faults)
    return lists["OLD_NODE"], lists["NEW_NODE"]


@command(
    "remap",
    "move the ends of contracts from old nodes to new ones",
    FOLDER,
    *HANDING_ON,
    reads("pairs", "a CSV file OLD_NODE,NEW_NODE"),
    writes("a folder", required=True),
    FORCE,
)
def remap(folder: Path, pairs: Path, out: Path, reading: Reading, force: bool) -> Answer:
    """Moves the ends of a book's contracts, pair after pair, and writes the whole case to another folder in
    the form that it had."""
    case = opened(folder, reading.handed_on, terms=True)
    old, new = _pairs(pairs, case.names.nodes)
    moved = case.with_book(remap_book(len(case.names.nodes), case.book_file(), old, new), case.names)
    changed = sum(before != after for before, after in zip(case.book, moved.book))
    write_like(moved, out, force)
    contracts = len(moved.book)
    applied, of_all = counted(len(old), "pair"), f"{counted(changed, 'contract')} of {contracts:,}"
    data: Dict[str, object] = {"out": str(out), "pairs": len(old), "changed": changed, "contracts": contracts}
    return Answer(PASSES, f"{out}: {applied} applied, {of_all} changed\n", data)


@command(
    "in-force",
    "the case of a day: the contracts in force on it, and its hours",
    FOLDER,
    *HANDING_ON,
    argument("day", type=a_day, metavar="DATE", help="YYYY-MM-DD"),
    writes("a folder", required=True),
    FORCE,
)
def in_force(folder: Path, day: str, out: Path, reading: Reading, force: bool) -> Answer:
    """Writes the case of a day in the form that the whole case has."""
    case = opened(folder, reading.handed_on, terms=True)
    of_day = replace(on_day(case, day), hours=[hour for hour in case.hours if hour.day == day])
    write_like(of_day, out, force)
    contracts, hours = len(of_day.book), counted(len(of_day.hours), "hour")
    of_all = f"{contracts:,} of {counted(len(case.book), 'contract')} in force"
    data: Dict[str, object] = {"out": str(out), "on": day, "contracts": contracts, "hours": len(of_day.hours)}
    return Answer(PASSES, f"{out}: {day}, {of_all}, {hours}\n", data)


VIEW_FILE = "a file for the view alone, as the library writes it"


@command(
    "market",
    "the case as the market sees it: holder 0 in every contract, and no names of holders or contracts",
    FOLDER,
    *HANDING_ON,
    writes("a folder for the whole case"),
    argument("--file", type=a_path, metavar="FILE", help=VIEW_FILE),
    argument("--names", action="store_true", help="publish the contracts' own names too"),
    FORCE,
)
def market(
    folder: Path, out: Optional[Path], file: Optional[Path], reading: Reading, names: bool, force: bool
) -> Answer:
    """Writes the case as the market sees it, in the form that it had, or the view alone."""
    if not out and not file:
        text = "where to: -o FOLDER for the whole case, --file FILE for the view alone"
        raise Faults([Fault("", 0, "", text)])
    case = opened(folder, reading.handed_on, prices=out is not None, terms=True)
    view = write_market_view(len(case.names.nodes), case.book_file())
    many = counts(case)
    contracts, holders = counted(many["contracts"], "contract"), counted(many["holders"], "holder")
    said = f"{contracts} of {holders}, all as holder 0"
    data: Dict[str, object] = {"contracts": many["contracts"], "bytes": len(view)}
    text = ""
    if file:
        write_beside(folder, file, view, force)
        text, data["file"] = f"{file}: {said}; {len(view):,} bytes written\n", str(file)
    if out:
        called = case.names.contracts if names else [str(number) for number in range(many["contracts"])]
        seen = replace(case.names, holders={}, contracts=called)
        write_like(case.with_book(view, seen), out, force)
        text, data["out"] = text + f"{out}: {said}; the whole case written\n", str(out)
    return Answer(PASSES, text, data)


def _holder(asked: str, names: Names) -> int:
    """The number of a holder that is asked for by name or by number."""
    number = {name: number for number, name in names.holders.items()}.get(asked, plain_number(asked))
    if number is None:
        text = f"{asked!r} is neither a holder's name nor a number from {HOLDER.low} to {HOLDER.high}"
        raise Faults([Fault("HOLDER", 0, "", text)])
    return number


VIEW = ("NUMBER", *BOOK)
_VIEW_TABLE = "view.csv"  # beside a holder's case: its contracts with their numbers in the whole book


def _holders_case(case: Case, number: int, held: Sequence[Held]) -> Case:
    """The case with a holder's contracts alone, and its name alone."""
    cut = case.cut([row.number for row in held])
    own = {number: name for at, name in case.names.holders.items() if at == number}
    return replace(cut, names=replace(cut.names, holders=own), book=[row.contract for row in held])


@command(
    "holder",
    "what one holder sees of the book: its contracts, each with its number",
    FOLDER,
    argument("asked", metavar="HOLDER", help="its name, as in OWNER, or its number, 0 to 1023"),
    *HANDING_ON,
    writes("a folder for the case of these contracts, with view.csv for their numbers"),
    argument("--file", type=a_path, metavar="FILE", help=VIEW_FILE),
    FORCE,
)
def holder(
    folder: Path, asked: str, out: Optional[Path], file: Optional[Path], reading: Reading, force: bool
) -> Answer:
    """What a holder sees of the book, read from the view; with `out` writes the case of it there, in the form
    that the whole had, with `file` the view itself."""
    case = opened(folder, reading.handed_on, prices=out is not None, terms=True)
    names, nodes, number = case.names, len(case.names.nodes), _holder(asked, case.names)
    view = write_holder_view(nodes, case.book_file(), number)
    held = read_holder_view(nodes, view, case.book_form)
    rows = [(row.number, *book_row(names, names.contracts[row.number], row.contract)) for row in held]
    text = csv_text(VIEW, rows)
    note = f"{names.holder(number)}: {counted(len(rows), 'contract')} of {len(case.book):,}"
    data: Dict[str, object] = {"holder": names.holder(number), "number": number}
    data.update(contracts=objects(VIEW, rows), bytes=len(view))
    if file:
        write_beside(folder, file, view, force)
        note, data["file"] = f"{note}; {file}: {counted(len(view), 'byte')} written", str(file)
    if out:
        write_like(_holders_case(case, number, held), out, force, {_VIEW_TABLE: text.encode()})
        note, data["out"] = f"{note}; {out}: the case of these written", str(out)
    return Answer(PASSES, text, data, f"{note}\n")
