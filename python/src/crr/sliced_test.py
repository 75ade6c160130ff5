"""The simultaneous feasibility test at any size, by slices.

A contract's flow on a constraint is made of the factors of its two ends on it and of its own figures. So the
flows of a book are those of its slices added up, each on a grid of the slice's nodes and at most 64
constraints; and a book passes exactly where each block of constraints, judged on such totals, passes. The
library adds (`add_flows`) and judges (`judge_flows`), and proves this of any grid and book. Here the slices
are cut, and the blocks' answers put side by side.
"""

from __future__ import annotations

from array import array
from concurrent.futures import Executor
from functools import partial
from typing import Dict, List, NamedTuple, Optional, Sequence

from .blocks import Block, Blocks, blocks_of
from .case import Case
from .feasibility import Verdict, add_flows, judge_flows
from .files import Contract, Grid
from .hours import Progress, in_parts
from .slices import cut
from .words import Line, Period, Process


class BookSlice(NamedTuple):
    """Nodes by their numbers in the whole grid, and a book of contracts between them, numbered by their
    place here."""

    nodes: "array[int]"
    book: bytes


class BlockAnswer(NamedTuple):
    """A block's flows by period, and its verdicts by period and process."""

    first: int
    flows: Dict[int, "array[int]"]
    verdicts: Dict[Line, Verdict]


class Tested(NamedTuple):
    """The test of a whole case: verdicts by period and process, whose sets have a bit for each constraint of
    the whole grid; flows by period; and how many contracts were counted in each."""

    verdicts: Dict[Line, Verdict]
    flows: Dict[int, List[int]]
    counted: Dict[int, int]


def book_slices(book: Sequence[Contract], period: int) -> List[BookSlice]:
    """A period's contracts in slices."""
    of_period = [contract for contract in book if contract.period == period]
    return [BookSlice(array("Q", piece.nodes), piece.book) for piece in cut(of_period)]


def judge_block(block: Block, slices: Dict[int, List[BookSlice]], processes: Sequence[int]) -> BlockAnswer:
    """A block's totals, added up slice by slice, and what they are judged to be."""
    rows, size = block.rows(), len(block.limits)
    flows: Dict[int, "array[int]"] = {}
    verdicts: Dict[Line, Verdict] = {}
    for period, of_period in slices.items():
        totals, summed = array("q", bytes(8 * size)), 0
        for piece in of_period:
            table = memoryview(b"".join(map(rows.__getitem__, piece.nodes))).cast("q")
            grid = Grid(len(piece.nodes), size, block.limits, table)
            summed = add_flows(grid, piece.book, period, totals, summed).summed
        flows[period] = totals
        judged = Grid(0, size, block.limits, array("q"))
        for process in processes:
            verdicts[period, process] = judge_flows(judged, process, totals, summed)
    return BlockAnswer(block.first, flows, verdicts)


def _judge_part(
    slices: Dict[int, List[BookSlice]], processes: Sequence[int], blocks: Sequence[Block]
) -> List[BlockAnswer]:
    """What a worker runs: a pure function of arguments that pickle."""
    return [judge_block(block, slices, processes) for block in blocks]


def whole_verdict(answers: Sequence[BlockAnswer], line: Line) -> Verdict:
    """The blocks' verdicts as one, of the whole grid."""
    overloaded = count = 0
    lowest: Optional[BlockAnswer] = None
    for answer in answers:
        verdict = answer.verdicts[line]
        overloaded |= verdict.set << answer.first
        count += verdict.count
        lowest = lowest or (answer if verdict.count else None)
    if lowest is None:
        return Verdict(0, 0, 0, 0)
    named = lowest.verdicts[line]
    return Verdict(overloaded, count, lowest.first + named.lowest, named.excess)


def case_blocks(case: Case) -> Blocks:
    """The blocks of a case, made where it has none."""
    return case.blocks or blocks_of(case.limits, case.factors, len(case.names.nodes))


def test_sliced(
    case: Case,
    periods: Sequence[int] = tuple(Period),
    processes: Sequence[int] = tuple(Process),
    executor: Optional[Executor] = None,
    parts: int = 32,
    progress: Progress = lambda done, total: None,
) -> Tested:
    """Tests a case of any size, up to 20,000,000 contracts in a period. Anything with `submit()` as
    concurrent.futures has it may share the work out, in so many tasks; every engine and number of them gives
    the same. Each task is handed its blocks, as bytes or by a path that the worker can read, and the book's
    slices."""
    slices = {period: book_slices(case.book, period) for period in periods}
    blocks = case_blocks(case).blocks
    task = partial(_judge_part, slices, list(processes))
    answers = [answer for part in in_parts(task, blocks, executor, parts, progress) for answer in part]
    lines = [(period, process) for period in periods for process in processes]
    flows = {period: [flow for answer in answers for flow in answer.flows[period]] for period in periods}
    counted = {period: sum(contract.period == period for contract in case.book) for period in periods}
    return Tested({line: whole_verdict(answers, line) for line in lines}, flows, counted)
