"""Copies of a book: its canonical form, and whether two copies with rows shuffled or split are the same book.

Holders and nodes are compared by name, since two folders may number them differently; the CRR_IDs of rows do
not count.
"""

from __future__ import annotations

import hashlib
from pathlib import Path
from typing import Dict, List, NamedTuple, Optional, Sequence, Tuple

from .case import Case, Term
from .command import FAILS, FOLDER, FORCE, PASSES, Answer, a_path, argument, command, counted, objects, writes
from .decimals import decimal
from .faults import Fault, Faults, raise_any
from .files import Contract, read_book, write_book, write_canonical_book
from .interface import HOLDER, QUANTITY, WIDE
from .opening import opened, write_beside
from .reading import READING_BOOK, Reading
from .to_csv import csv_text
from .words import HEDGE_TYPES, TIMES_OF_USE

CANONICAL = ("OWNER", "HEDGE_TYPE", "TIME_OF_USE", "SOURCE", "SINK", "MW")
DIFFERENCES = (*CANONICAL[:-1], "FIRST_MW", "SECOND_MW", "CHANGE_MW")
Five = Tuple[int, int, int, int, int]


def _megawatts(quantity: int) -> str:
    return decimal(quantity, QUANTITY.places)


class Numbers(NamedTuple):
    """Names of holders and nodes by number."""

    holders: List[str]
    nodes: List[str]

    def words(self, five: Sequence[int]) -> Tuple[str, str, str, str, str]:
        """A kind, period, holder, source and sink in the columns' order and in words."""
        kind, period, holder, source, sink = five
        return (
            self.holders[holder],
            HEDGE_TYPES[kind],
            TIMES_OF_USE[period],
            self.nodes[source],
            self.nodes[sink],
        )


@command(
    "canonical",
    "the canonical form of a book: sorted, equal contracts added together; "
    "one for all copies with rows shuffled or split",
    FOLDER,
    *READING_BOOK,
    writes("a file for the canonical book, as the library reads it"),
    FORCE,
)
def canonical(folder: Path, reading: Reading, out: Optional[Path], force: bool) -> Answer:
    """The canonical form of a folder's book as a table; with `out` as the library's file."""
    case = opened(folder, reading, prices=False)
    names, nodes = case.names, len(case.names.nodes)
    form = write_canonical_book(nodes, case.book_file())
    book = read_book(nodes, form)
    numbers = Numbers([names.holder(holder) for holder in range(HOLDER.high + 1)], names.nodes)
    rows = [(*numbers.words(row[:5]), _megawatts(row.quantity)) for row in book]
    text = f"{counted(len(case.book), 'contract')}, {counted(len(book), 'row')} in the canonical form\n"
    data: Dict[str, object] = {"contracts": len(case.book), "rows": objects(CANONICAL, rows)}
    data["sha256"] = hashlib.sha256(form).hexdigest()
    if not out:
        return Answer(PASSES, csv_text(CANONICAL, rows), data, text)
    write_beside(folder, out, form, force)
    return Answer(PASSES, f"{out}: {text}", {"out": str(out), **data})


def _named(case: Case) -> List[Tuple[str, str, str]]:
    """Holder, source and sink of each contract by name. A holder's contracts of another term count as those
    of another holder, who is called by the term too."""
    names, terms = case.names, case.terms or [Term()] * len(case.book)
    owners = [
        names.holder(row.holder) + (f" {term.words}" if any(term) else "")
        for row, term in zip(case.book, terms)
    ]
    return [(owner, names.nodes[row.source], names.nodes[row.sink]) for owner, row in zip(owners, case.book)]


def _common(cases: Sequence[Case]) -> Numbers:
    """Numbers for every holder and node that one of the books names: those of the first in its order, then
    what the others have more."""
    named = [row for case in cases for row in _named(case)]
    holders = {row[0]: None for row in named}
    nodes = {node: None for case in cases for node in case.names.nodes}
    used = {node for row in named for node in row[1:]}
    return Numbers(list(holders), [node for node in nodes if node in used])


def _renumbered(case: Case, numbers: Numbers) -> List[Contract]:
    holders, nodes = ({name: number for number, name in enumerate(names)} for names in numbers)
    return [
        contract._replace(holder=holders[holder], source=nodes[source], sink=nodes[sink])
        for contract, (holder, source, sink) in zip(case.book, _named(case))
    ]


def _equal(books: Sequence[List[Contract]], numbers: Numbers) -> bool:
    """Whether the canonical forms, wide and for one grid, have equal bytes, which is proved to mean equal
    totals. 1,000 contracts have at most 2,000 nodes, so two books never have too many. With more holders than
    a book can number, one of the books has a holder that the other lacks."""
    if len(numbers.holders) > HOLDER.high + 1:
        return False
    nodes = max(1, len(numbers.nodes))
    first, second = (write_canonical_book(nodes, write_book(nodes, book, WIDE)) for book in books)
    return first == second


def _totals(book: Sequence[Contract]) -> Dict[Five, int]:
    totals: Dict[Five, int] = {}
    for kind, period, holder, source, sink, quantity in book:
        five = (kind, period, holder, source, sink)
        totals[five] = totals.get(five, 0) + quantity
    return totals


def _differences(books: Sequence[List[Contract]], numbers: Numbers) -> List[Tuple[str, ...]]:
    """A row for each holder, kind, period, source and sink whose totals differ, in the canonical order."""
    firsts, seconds = (_totals(book) for book in books)
    fives = [five for five in sorted({**firsts, **seconds}) if firsts.get(five) != seconds.get(five)]
    both = [(five, firsts.get(five, 0), seconds.get(five, 0)) for five in fives]
    return [
        (*numbers.words(five), _megawatts(first), _megawatts(second), _megawatts(second - first))
        for five, first, second in both
    ]


def _both(folders: Sequence[Path], reading: Reading) -> List[Case]:
    """The cases of two folders; the faults of either are named with their folder."""
    cases: List[Case] = []
    faults: List[Fault] = []
    for folder in folders:
        try:
            cases.append(opened(folder, reading, prices=False, terms=True))
        except Faults as problem:
            faults += [fault.within(folder) for fault in problem.faults]
    raise_any(faults)
    return cases


@command(
    "same",
    "whether two folders have the same book, rows shuffled or split or not, and the totals that differ",
    argument("first", type=a_path, metavar="FOLDER", help=FOLDER.settings["help"]),
    argument("second", type=a_path, metavar="FOLDER", help="another such folder"),
    *READING_BOOK,
)
def same(first: Path, second: Path, reading: Reading) -> Answer:
    """Whether two folders have the same book; status 1 where they have not, with every total that differs."""
    cases = _both((first, second), reading)
    numbers = _common(cases)
    books = [_renumbered(case, numbers) for case in cases]
    equal = _equal(books, numbers)
    rows = [] if equal else _differences(books, numbers)
    sizes = " and ".join(counted(len(book), "contract") for book in books)
    differ = f"{counted(len(rows), 'total')} differ{'s' if len(rows) == 1 else ''}"
    text = "the same book" if equal else f"not the same book: {differ}"
    data: Dict[str, object] = {"same": equal, "contracts": [len(book) for book in books]}
    data["differences"] = objects(DIFFERENCES, rows)
    note = f"{first}, {second}: {text} ({sizes})\n"
    return Answer(PASSES if equal else FAILS, csv_text(DIFFERENCES, rows), data, note)
