"""The command `crr tiers`."""

from __future__ import annotations

from dataclasses import replace
from pathlib import Path
from typing import Dict, List, NamedTuple, Optional, Sequence, Tuple

from .book_csv import BOOK
from .case import Case, Names, book_form
from .command import (
    FAILS,
    FOLDER,
    FORCE,
    PASSES,
    PERIOD,
    PROCESS,
    Answer,
    command,
    counted,
    objects,
    reads,
    writes,
)
from .decimals import decimal
from .faults import Fault, raise_any
from .feasibility import Verdict, test_book
from .files import Contract, Grid, write_book
from .interface import FLOW_PLACES, WIDE
from .native import Refused
from .opening import opened, owner_numbers, write_like
from .reading import HANDING_ON, Reading
from .running import TIERS, RunningTest
from .sheet import Sheet
from .tiers_csv import ADD, MARK, Operation, read_operations
from .to_csv import book_row, csv_text
from .words import PROCESSES, TIMES_OF_USE, Period, Process

PLAYED = ("OPERATION", "NAME", "ANSWER", "HELD", "COUNTED", "OVERLOADED", "LOWEST_NUMBERED", "EXCESS_MW")
_DONE = {"add": "held", "mark": "marked", "return": "returned"}


class Played(NamedTuple):
    """A running test after its operations: a row for each, how many were refused, and the names of the awards
    held."""

    running: RunningTest
    rows: List[Tuple[object, ...]]
    refused: int
    ids: List[str]


def _of_book(case: Case) -> List[Operation]:
    """The book's contracts as awards."""
    names = case.names
    return [
        Operation(0, ADD, 0, crr_id, names.holder(contract.holder), contract)
        for crr_id, contract in zip(names.contracts, case.book)
    ]


def _numbered(
    case: Case, sheet: Sheet, operations: Sequence[Operation]
) -> Tuple[List[Operation], Dict[int, str]]:
    """The operations with their holders, and the holders that have a name."""
    owned = [(operation.line, operation.owner) for operation in operations if operation.owner]
    numbers = owner_numbers(case, sheet, owned)
    numbered = [
        operation._replace(award=operation.award._replace(holder=numbers.get(operation.owner, 0)))
        for operation in operations
    ]
    named = {number: name for name, number in numbers.items() if name != str(number)}
    return numbered, {**case.names.holders, **named}


def _over(grid: Grid, running: RunningTest, award: Contract) -> Verdict:
    """Where the awards held fail with one more, which the refusal does not say."""
    return test_book(
        grid, write_book(grid.nodes, [*running.held, award], WIDE), running.process, running.period
    )


def _carry_out(running: RunningTest, operation: Operation) -> int:
    """The refusal's number, or 0."""
    try:
        if operation.what == ADD:
            running.add(operation.award)
        elif operation.what == MARK:
            running.mark(operation.tier)
        else:
            running.return_to(operation.tier)
    except Refused as refused:
        return refused.number
    return 0


def _play(
    grid: Grid, names: Names, running: RunningTest, operations: Sequence[Operation], sheet: Optional[Sheet]
) -> Played:
    """Every operation, one after another. An award whose name one of those held has already is a fault."""
    rows: List[Tuple[object, ...]] = []
    ids: List[str] = []
    refusals = 0
    for operation in operations:
        number = _carry_out(running, operation)
        refusals += number > 0
        if not number and operation.what == ADD:
            if operation.crr_id in ids and sheet:
                sheet.fault(operation.line, "CRR_ID", f"{operation.crr_id} is held already")
            ids.append(operation.crr_id)
        held = len(running.cells) // 6
        del ids[held:]
        overload: Tuple[object, ...] = ("", "", "")
        if number == 21:
            over = _over(grid, running, operation.award)
            overload = (over.count, names.constraints[over.lowest], decimal(over.excess, FLOW_PLACES))
        answer = f"refused {number}" if number else _DONE[operation.what]
        name = operation.crr_id if operation.what == ADD else TIERS[operation.tier]
        rows.append((operation.what, name, answer, held, running.counted, *overload))
    raise_any(sheet.faults if sheet else [])
    return Played(running, rows, refusals, ids)


def _answer(played: Played, names: Names, out: Optional[Path]) -> Answer:
    """What the operations came to; status 1 where one was refused."""
    running, held = played.running, played.running.held
    time_of_use = TIMES_OF_USE[running.period]
    note = f"{f'{out}: ' if out else ''}{counted(len(held), 'award')} held, "
    note += f"{running.counted:,} of them {time_of_use}; "
    note += f"{counted(played.refused, 'operation')} of {len(played.rows):,} refused\n"
    rows = [book_row(names, crr_id, contract) for crr_id, contract in zip(names.contracts, held)]
    flows = zip(names.constraints, running.flows)
    data: Dict[str, object] = {
        "process": PROCESSES[running.process],
        "time_of_use": time_of_use,
        "operations": objects(PLAYED, played.rows),
        "held": objects(BOOK, rows),
        "marks": {TIERS[tier]: count for tier, count in running.marks.items()},
        "flows_mw": {name: decimal(flow, FLOW_PLACES) for name, flow in flows},
        "out": str(out) if out else None,
    }
    return Answer(FAILS if played.refused else PASSES, csv_text(PLAYED, played.rows), data, note)


_AWARDS = (
    "a CSV file OPERATION,TIER and the columns of book.csv: add, mark, return; "
    "without it the book's contracts are added in their order"
)


@command(
    "tiers",
    "awards tried one after another on the grid, with tiers to mark and to come back to, "
    "for one period and process",
    FOLDER,
    *HANDING_ON,
    reads("awards", _AWARDS, nargs="?"),
    PERIOD,
    PROCESS,
    writes("a folder for the case with the awards held for its book"),
    FORCE,
)
def tiers(
    folder: Path,
    period: Period,
    process: Process,
    awards: Optional[Path],
    out: Optional[Path],
    reading: Reading,
    force: bool,
) -> Answer:
    """Plays operations on a running test on the grid of a folder, or the contracts of its book as awards;
    with `out` writes the whole case there, with the awards held for its book, in the form that it had."""
    case = opened(folder, reading.handed_on, prices=out is not None)
    grid, names, operations = case.grid, case.names, _of_book(case)
    sheet: Optional[Sheet] = None
    if awards:
        faults: List[Fault] = []
        sheet, operations = read_operations(awards, names.nodes, faults)
        operations, holders = _numbered(case, sheet, operations)
        raise_any(faults)
        names = replace(names, holders=holders)
    played = _play(grid, names, RunningTest(grid, process, period), operations, sheet)
    held, names = played.running.held, replace(names, contracts=played.ids)
    if out:
        form = max(case.book_form, book_form(held))
        terms = case.terms[:1] * len(held)  # all are alike
        write_like(replace(case, names=names, book=held, book_form=form, terms=terms), out, force)
    return _answer(played, names, out)
