"""What the market sees of a book, and what a holder sees of it.

Neither tells more than that by what is written, which is proved of the library. Time is not covered: writing
a holder's view takes the longer, the more contracts match.
"""

from __future__ import annotations

from typing import Dict, List, NamedTuple

from .files import Contract, read_book, write_book, written
from .interface import MAX_BOOK_BYTES, MAX_CONTRACTS, MAX_HOLDER_VIEW_BYTES, NARROW, WIDE
from .native import Bytes, Entry, lend_bytes

_write_market_view = Entry("crr_write_market_view")
_write_holder_view = Entry("crr_write_holder_view")


class Held(NamedTuple):
    """A contract of a holder's view, and its number in the book, from 0 on."""

    number: int
    contract: Contract


def write_market_view(nodes: int, book: Bytes) -> bytes:
    """The book's file, for a grid of so many nodes, with holder 0 in every contract."""
    return written(_write_market_view, MAX_BOOK_BYTES, (nodes, book))


def write_holder_view(nodes: int, book: Bytes, holder: int) -> bytes:
    """The holder's contracts, of both periods and in the order of the book: the number of each in two bytes,
    then its own bytes."""
    return written(_write_holder_view, MAX_HOLDER_VIEW_BYTES, (nodes, book, holder))


class _Layout(NamedTuple):
    """How the library writes a book and a view, found by what it writes of a full one: the bytes of a book's
    header and of a contract, those of a number before it, and the number that each of these stands for."""

    header: int
    contract: int
    number: int
    numbers: Dict[bytes, int]


_ANY = Contract(0, 0, 0, 0, 0, 1)


def _layout(nodes: int, form: int) -> _Layout:
    full = write_book(nodes, [_ANY] * MAX_CONTRACTS, form)
    header = len(write_book(nodes, [], form))
    contract = (len(full) - header) // MAX_CONTRACTS
    view = write_holder_view(nodes, full, _ANY.holder)
    row = len(view) // MAX_CONTRACTS
    starts = [view[at : at + row - contract] for at in range(0, len(view), row)]
    return _Layout(header, contract, row - contract, {start: number for number, start in enumerate(starts)})


def read_holder_view(nodes: int, view: Bytes, form: int = NARROW) -> List[Held]:
    """The contracts of a holder's view. It does not tell the book's form, which the holder is told beside it.
    Bytes that are no such view are refused as the book of its contracts is; a number that no contract can
    have is a ValueError."""
    if form not in (NARROW, WIDE):
        raise ValueError(f"form: {NARROW} narrow or {WIDE} wide, not {form}")
    layout, file = _layout(nodes, form), memoryview(lend_bytes(view, "view").owner).tobytes()
    step = layout.number + layout.contract
    rows = [file[at : at + step] for at in range(0, len(file), step)]
    header = write_book(nodes, [_ANY] * len(rows), form)[: layout.header]
    contracts = read_book(nodes, b"".join([header, *(row[layout.number :] for row in rows)]))
    starts = [row[: layout.number] for row in rows]
    unknown = next((place for place, start in enumerate(starts) if start not in layout.numbers), None)
    if unknown is not None:
        raise ValueError(f"row {unknown} of the view has the number {starts[unknown].hex()}, of no contract")
    return [Held(layout.numbers[start], contract) for start, contract in zip(starts, contracts)]
