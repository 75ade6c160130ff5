"""The three files, grid, book and prices: bytes to tables and back; a book remapped, canonical, and grown.
Figures are whole numbers in the units of crr.h."""

from __future__ import annotations

from array import array
from ctypes import c_uint64
from dataclasses import dataclass
from typing import Iterable, List, NamedTuple, Sequence, Tuple, Union, cast

from .interface import (
    MAX_BOOK_BYTES,
    MAX_CONSTRAINTS,
    MAX_CONTRACTS,
    MAX_GRID_BYTES,
    MAX_NODES,
    MAX_PRICE_BYTES,
    NARROW,
)
from .native import Bytes, Cells, Entry, Given, Lent, lend_cells, whole_numbers, zeros

_read_grid = Entry("crr_read_grid")
_write_grid = Entry("crr_write_grid")
_read_book = Entry("crr_read_book")
_write_book = Entry("crr_write_book")
_remap_book = Entry("crr_remap_book")
_write_canonical_book = Entry("crr_write_canonical_book")
_add_hub_contract = Entry("crr_add_hub_contract")
_read_prices = Entry("crr_read_prices")
_write_prices = Entry("crr_write_prices")


@dataclass(frozen=True)
class Grid:
    """A grid's tables: limits, one for each constraint, and factors, that of node n on constraint k in cell
    n * constraints + k. Those that were read from a file are arrays."""

    nodes: int
    constraints: int
    limits: Cells
    factors: Cells
    form: int = NARROW


class Contract(NamedTuple):
    """A CRR: kind 0 obligation, 1 option; period 0 off-peak, 1 on-peak; quantity in thousandths of a MW."""

    kind: int
    period: int
    holder: int
    source: int
    sink: int
    quantity: int


class Prices(NamedTuple):
    """An hour's shadow prices, one for each constraint, in cents per MWh, and its period."""

    period: int
    prices: "array[int]"


Book = Union[Iterable[Sequence[int]], Cells]


def written(entry: Entry, longest: int, given: Sequence[Given]) -> bytes:
    """What a writer writes into a buffer that is long enough for its longest file."""
    file, count = bytearray(longest), c_uint64()
    entry(*given, Lent(file, "B", writable=True), count)
    return bytes(memoryview(file)[: count.value])


def read_grid(file: Bytes, name: str = "") -> Grid:
    """The tables of a grid's file. `name` is what a refusal calls the file."""
    limits, factors = zeros("Q", MAX_CONSTRAINTS), zeros("q", MAX_NODES * MAX_CONSTRAINTS)
    nodes, constraints, form = c_uint64(), c_uint64(), c_uint64()
    _read_grid(file, Lent(limits, "Q", True), Lent(factors, "q", True), nodes, constraints, form, file=name)
    n, k = nodes.value, constraints.value
    return Grid(n, k, limits[:k], factors[: n * k], form.value)


def write_grid(grid: Grid) -> bytes:
    """The grid's file."""
    return written(
        _write_grid, MAX_GRID_BYTES, (grid.form, grid.nodes, grid.constraints, grid.limits, grid.factors)
    )


def _read_cells(nodes: int, file: Bytes, name: str) -> Tuple["array[int]", int]:
    cells, contracts, form = zeros("Q", 6 * MAX_CONTRACTS), c_uint64(), c_uint64()
    _read_book(nodes, file, Lent(cells, "Q", True), contracts, form, file=name)
    return cells[: 6 * contracts.value], form.value


def read_book_cells(nodes: int, file: Bytes, name: str = "") -> "array[int]":
    """A book's contracts as six cells each: kind, period, holder, source, sink, quantity."""
    return _read_cells(nodes, file, name)[0]


def read_book_form(nodes: int, file: Bytes, name: str = "") -> int:
    """Whether a book's file is narrow or wide."""
    return _read_cells(nodes, file, name)[1]


def read_book(nodes: int, file: Bytes, name: str = "") -> List[Contract]:
    """The contracts of a book's file, for a grid of so many nodes."""
    cells = read_book_cells(nodes, file, name)
    return list(map(Contract._make, zip(*[iter(cells)] * 6)))


FIGURES = len(Contract._fields)


def six_figures(row: Iterable[int], name: str) -> "array[int]":
    """A contract's cells. A row of another length is a ValueError: what it lacks or has too much would go to
    its neighbours, or nowhere."""
    if isinstance(row, (str, bytes)) or not hasattr(row, "__iter__"):
        raise TypeError(f"{name}: {', '.join(Contract._fields)} are needed, not {type(row).__name__}")
    figures = list(row)
    if len(figures) != FIGURES:
        raise ValueError(
            f"{name} has {len(figures)} figures and not {FIGURES}: {', '.join(Contract._fields)}"
        )
    return whole_numbers(figures, "Q", name)


def _buffer_rows(book: Cells, name: str) -> Lent:
    """A buffer of six cells for each contract, in one dimension or in rows of six."""
    lent = lend_cells(book, "Q", name)
    shape = memoryview(lent.owner).shape or (lent.cells,)
    if len(shape) > 2:
        raise ValueError(
            f"{name}: a table of {len(shape)} dimensions: row 0 is a table itself, and not {FIGURES} figures"
        )
    rows, left = divmod(lent.cells, FIGURES)
    if len(shape) == 2 and shape[1] != FIGURES and lent.cells:
        rows, left = 0, shape[1]
    if left:
        raise ValueError(
            f"row {rows} of {name} has {left} figures and not {FIGURES}: {', '.join(Contract._fields)}"
        )
    return lent


def book_cells(book: Book, name: str = "book") -> Lent:
    """A book as cells, six for each contract: a buffer as it is, else rows put one behind the other. Rows are
    numbered from 0 on."""
    if hasattr(book, "columns"):
        columns = f"its columns {', '.join(Contract._fields)}, in this order"
        raise TypeError(f"{name}: a table with named columns: hand over {columns}, by to_numpy()")
    flat = isinstance(book, (list, tuple)) and len(book) > 0 and not hasattr(book[0], "__iter__")
    if (
        flat
        or isinstance(book, (array, memoryview))
        or hasattr(book, "__array_interface__")
        or hasattr(book, "to_numpy")
    ):
        return _buffer_rows(cast(Cells, book), name)
    if isinstance(book, (str, bytes, bytearray)) or not hasattr(book, "__iter__"):
        raise TypeError(f"{name}: contracts, or six cells for each, are needed, not {type(book).__name__}")
    cells = array("Q")
    for number, row in enumerate(cast(Iterable[Sequence[int]], book)):
        cells.extend(six_figures(row, f"row {number} of {name}"))
    return Lent(cells, "Q")


def write_book(nodes: int, book: Book, form: int = NARROW) -> bytes:
    """The book's file, for a grid of so many nodes, from contracts or from a buffer of six cells for each. A
    row that has not six figures is a ValueError with its number."""
    cells = book_cells(book)
    return written(_write_book, MAX_BOOK_BYTES, (form, nodes, cells.cells // FIGURES, cells))


def remap_book(nodes: int, book: Bytes, old_nodes: Cells, new_nodes: Cells) -> bytes:
    """The book's file with both ends of every contract moved, one pair of old and new node after another."""
    return written(_remap_book, MAX_BOOK_BYTES, (nodes, book, old_nodes, new_nodes))


def write_canonical_book(nodes: int, book: Bytes) -> bytes:
    """The canonical form of a book's file, which copies with rows shuffled or split have in common: sorted by
    kind, period, holder, source and sink, equal ones added together and cut into rows of 1,000,000."""
    return written(_write_canonical_book, MAX_BOOK_BYTES, (nodes, book))


def add_hub_contract(
    nodes: int,
    book: Bytes,
    kind: int,
    period: int,
    holder: int,
    hub_nodes: Cells,
    hub_weights: Cells,
    sink: int,
    quantity: int,
) -> bytes:
    """The book's file with a contract from a hub behind its own, as contracts from the hub's nodes. Weights
    are hundred-thousandths."""
    return written(
        _add_hub_contract,
        MAX_BOOK_BYTES,
        (nodes, book, kind, period, holder, hub_nodes, hub_weights, sink, quantity),
    )


def read_prices(constraints: int, file: Bytes, name: str = "") -> Prices:
    """The period and prices of a price file, for a grid of so many constraints."""
    prices, period = zeros("Q", MAX_CONSTRAINTS), c_uint64()
    _read_prices(constraints, file, Lent(prices, "Q", True), period, file=name)
    return Prices(period.value, prices[:constraints])


def write_prices(period: int, prices: Cells) -> bytes:
    """The price file of an hour, with as many constraints as there are prices."""
    cells = lend_cells(prices, "Q", "prices")
    return written(_write_prices, MAX_PRICE_BYTES, (period, cells.cells, cells))
