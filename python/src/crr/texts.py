"""The texts that the library writes itself: the hour statement and the feasibility report, as the
programs print them, and what a refusal means."""

from __future__ import annotations

from ctypes import c_uint64

from .interface import REFUSAL_TEXT_BYTES, REPORT_BYTES, STATEMENT_BYTES
from .native import Bytes, Entry, Lent, lend_bytes

_refusal_text = Entry("crr_refusal_text")
_write_report = Entry("crr_write_report")
_write_statement = Entry("crr_write_statement")


def _text(entry: Entry, room: int, **files: Bytes) -> str:
    text, count = bytearray(room), c_uint64()
    entry(*(lend_bytes(file, name) for name, file in files.items()), Lent(text, "B", True), count)
    return text[: count.value].decode("ascii")


def write_report(grid: Bytes, book: Bytes) -> str:
    """The feasibility report on a grid's file and a book's file; a file that is turned down gives its one
    line `refused`."""
    return _text(_write_report, REPORT_BYTES, grid=grid, book=book)


def write_statement(grid: Bytes, book: Bytes, prices: Bytes) -> str:
    """The hour statement on a grid's, a book's and a price file; a file that is turned down gives its one
    line `refused`."""
    return _text(_write_statement, STATEMENT_BYTES, grid=grid, book=book, prices=prices)


def refusal_text(number: int) -> str:
    """What a refusal's number means, as the library says it; empty for a number that no refusal has."""
    text, count = bytearray(REFUSAL_TEXT_BYTES), c_uint64()
    _refusal_text(number, Lent(text, "B", True), count)
    return text[: count.value].decode("ascii")
