"""What commands ask of a case that is larger than the library's sizes: verdicts and flows by slices, and the
cuts that clear a failing book."""

from __future__ import annotations

from typing import Dict, Iterator, List, Sequence, Tuple

from .bar import Bar
from .case import Case
from .command import counted
from .feasibility import Cut, Verdict, excesses, find_flows, released_percent
from .interface import MAX_CONSTRAINTS
from .opening import workers
from .sliced_test import case_blocks, test_sliced
from .words import Kind, Line


def judged(case: Case, periods: Sequence[int], processes: Sequence[int]) -> Dict[Line, Verdict]:
    """The test's answers on a large case; it keeps the flows."""
    with workers(case.jobs) as pool:
        tested = test_sliced(case, periods, processes, pool, progress=Bar("test", "blocks"))
    case.flows = {**case.flows, **tested.flows}
    return tested.verdicts


def flows_of(case: Case, period: int) -> List[int]:
    """The flow on each constraint, as the test sums it."""
    return find_flows(case.grid, case.book_file(), period).flows if case.fits else case.flows[period]


def _megabytes(size: int) -> str:
    return f"{size / 1e6:,.0f} MB"


def large_words(case: Case, passed: bool) -> str:
    """How a large case was tested, what memory its factors took, and what is not told of one that fails."""
    if case.fits:
        return ""
    blocks = counted(-(-len(case.names.constraints) // MAX_CONSTRAINTS), "block")
    said = f"tested by slices: {blocks} of at most {MAX_CONSTRAINTS} constraints"
    held, spilled = (case.blocks.held, case.blocks.spilled) if case.blocks is not None else (0, 0)
    said += f"; factors: {_megabytes(held)} in memory" if held else ""
    said += f"; factors: {_megabytes(spilled)} in a temporary file" if spilled else ""
    at_worst = f"; what an hour costs at worst is told up to {MAX_CONSTRAINTS} constraints"
    return f"{said}{'' if passed else at_worst}\n"


Needs = Dict[int, int]  # by contract: the least cut that may clear the book


def large_cuts(case: Case, line: Line, verdict: Verdict) -> List[Cut]:
    """The contracts of a failing book each of which can clear it alone, as `find_cuts` lists them. Worked out
    here, of the flows that the library summed: it takes books of at most 1,000 contracts."""
    period, process = line
    over = excesses(case.limits, case.flows[period], released_percent(process))
    needs = {number: 1 for number, contract in enumerate(case.book) if contract.period == period}
    for k, column in case.columns(verdict.overloaded).items():
        needs = _needed(case, needs, over[k], column)
    for first, rows in _tables(case, needs):  # a block at a time
        rooms = [-excess for excess in over[first : first + MAX_CONSTRAINTS]]
        needs = {number: cut for number, cut in needs.items() if _clears(case, number, cut, rows, rooms)}
    return sorted((Cut(*need) for need in needs.items()), key=lambda cut: (cut.cut, cut.contract))


def _needed(case: Case, needs: Needs, excess: int, column: Sequence[int]) -> Needs:
    """The contracts that can clear an overloaded constraint too, and their cuts then."""
    left: Needs = {}
    for number, cut in needs.items():
        contract = case.book[number]
        share = column[contract.source] - column[contract.sink]
        cut = max(cut, -(-excess // share)) if share > 0 else contract.quantity + 1
        if cut <= contract.quantity:
            left[number] = cut
    return left


def _tables(case: Case, needs: Needs) -> Iterator[Tuple[int, List[bytes]]]:
    """Each block's first constraint and its factors by node, where an obligation is left: an option's cut
    raises no flow."""
    if any(case.book[number].kind == Kind.OBLIGATION for number in needs):
        for block in case_blocks(case).blocks:
            yield block.first, block.rows()


def _clears(case: Case, number: int, cut: int, rows: Sequence[bytes], rooms: Sequence[int]) -> bool:
    """Whether a contract's cut raises no flow of a block beyond its room."""
    contract = case.book[number]
    if contract.kind != Kind.OBLIGATION:
        return True
    ends = (memoryview(rows[node]).cast("q") for node in (contract.source, contract.sink))
    return all((sink - source) * cut <= room for source, sink, room in zip(*ends, rooms))
