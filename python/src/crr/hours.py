"""Many hours of one book. Bring your own engine: anything with `submit()` as concurrent.futures has it;
without one, this thread."""

from __future__ import annotations

import os
from array import array
from concurrent.futures import Executor, as_completed
from fractions import Fraction
from functools import lru_cache, partial
from typing import Callable, Dict, List, NamedTuple, Optional, Sequence, Tuple, TypeVar, Union

from .files import Grid, read_book_cells, read_grid
from .interface import MAX_PRICE_BYTES
from .settlement import HourTotal, Settler


class PriceFile(NamedTuple):
    """An hour's price file, as bytes or by its path, with the day (YYYY-MM-DD) and the hour ending (1 to 25)
    that it is for, if known."""

    day: str
    hour: int
    file: Union[bytes, str]

    @property
    def month(self) -> str:
        """YYYY-MM, or empty."""
        return self.day[:7]


class Settled(NamedTuple):
    """What many hours come to: the figures of each hour, in the order given, and for each month the cents of
    each contract over its hours."""

    hours: List[HourTotal]
    months: Dict[str, List[int]]

    @property
    def cents(self) -> List[int]:
        """The cents of each contract over all hours."""
        return list(map(sum, zip(*self.months.values())))

    @property
    def sum(self) -> int:
        """All rounded cents."""
        return sum(hour.sum for hour in self.hours)

    @property
    def exact(self) -> Fraction:
        """The exact total in cents."""
        return sum((hour.exact for hour in self.hours), Fraction(0))


Progress = Callable[[int, int], None]  # hours done, hours in all
Hours = TypeVar("Hours")
Result = TypeVar("Result")


class _Lanes:
    """Cells added cell by cell, as one number for all of them: cell i counts 2^(64 i). Adding 1,000 cells so
    takes a tenth of adding them one by one."""

    def __init__(self, cells: int) -> None:
        self.cells = cells
        self._ones = sum(1 << 64 * i for i in range(cells))

    def number(self, cells: "array[int]") -> int:
        """The sum of cell i * 2^(64 i). The bytes of a negative cell read as 2^64 more than it is, so 1 is
        taken from what follows it."""
        read = int.from_bytes(cells, "little")
        return read - ((read >> 63 & self._ones) << 64)

    def list(self, number: int) -> List[int]:
        """The cells of such a number, each below 2^63 in size."""
        half = 1 << 63
        lifted = (number + half * self._ones).to_bytes(8 * self.cells, "little")
        return [cell - half for cell in array("Q", lifted)]


@lru_cache(maxsize=8)
def _opened(grid: bytes, book: bytes) -> Tuple[Grid, int, _Lanes]:
    """Once for each worker, not once for each task. All of it is only read, so threads may share it."""
    tables = read_grid(grid)
    contracts = len(read_book_cells(tables.nodes, book)) // 6
    return tables, contracts, _Lanes(contracts)


def read_price_file(file: Union[bytes, str]) -> Tuple[bytes, str]:
    """A price file's bytes and its name. One byte more than the longest is enough to have a longer file
    refused."""
    if isinstance(file, bytes):
        return file, ""
    handle = os.open(file, os.O_RDONLY)
    try:
        return os.read(handle, MAX_PRICE_BYTES + 1), file
    finally:
        os.close(handle)


def settle_part(
    grid: bytes, book: bytes, hours: Sequence[PriceFile]
) -> Tuple[List[HourTotal], Dict[str, int]]:
    """What a worker runs: a pure function of arguments that pickle. Gives the hours' figures and each month's
    cents, as `_Lanes` puts them."""
    tables, contracts, lanes = _opened(grid, book)
    settler = Settler(tables, book, contracts)
    totals: List[HourTotal] = []
    months: Dict[str, int] = {}
    for hour in hours:
        file, name = read_price_file(hour.file)
        totals.append(settler.settle(file, name or f"{hour.day} HE{hour.hour:02}"))
        months[hour.month] = months.get(hour.month, 0) + lanes.number(settler.cents)
    return totals, months


def in_parts(
    task: Callable[[Sequence[Hours]], Result],
    hours: Sequence[Hours],
    executor: Optional[Executor],
    parts: int,
    progress: Progress,
) -> List[Result]:
    """The task's result for each part of the hours, in their order. The first exception of a task is raised,
    and what has not begun is called off."""
    step = max(1, -(-len(hours) // max(1, parts)))
    cuts = [hours[at : at + step] for at in range(0, len(hours), step)]
    done = 0
    if executor is None:
        got = []
        for cut in cuts:
            got.append(task(cut))
            done += len(cut)
            progress(done, len(hours))
        return got
    tasks = {executor.submit(task, cut): len(cut) for cut in cuts}
    try:
        for finished in as_completed(tasks):
            finished.result()
            done += tasks[finished]
            progress(done, len(hours))
        return [finished.result() for finished in tasks]
    finally:
        for unfinished in tasks:
            unfinished.cancel()


def settle_hours(
    grid: bytes,
    book: bytes,
    hours: Sequence[PriceFile],
    executor: Optional[Executor] = None,
    parts: int = 24,
    progress: Progress = lambda done, total: None,
) -> Settled:
    """Settles every hour over one book, in so many tasks. An engine that takes milliseconds for a task (dask)
    wants few; 24 suit a year.

    Every sum is of whole numbers, so the result is the same for every engine and every number of parts."""
    for name, file in (("grid", grid), ("book", book)):
        if not isinstance(file, bytes):  # they are handed to workers, and kept by their bytes
            raise TypeError(f"{name}: the bytes of a file are needed, not {type(file).__name__}")
    _, _, lanes = _opened(grid, book)
    totals: List[HourTotal] = []
    months: Dict[str, int] = {}
    for part_totals, part_months in in_parts(
        partial(settle_part, grid, book), hours, executor, parts, progress
    ):
        totals += part_totals
        for month, number in part_months.items():
            months[month] = months.get(month, 0) + number
    return Settled(totals, {month: lanes.list(number) for month, number in sorted(months.items())})
