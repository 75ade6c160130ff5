"""A case larger than the library's sizes, packed for the test to be run again and again: large.json (names,
limits, and how long each piece is), grid.blocks (the pieces of each block, one behind the other, each a
grid's file as the library writes it), book.cells (six numbers of four bytes for each contract).

Prices are not packed: `crr settle` takes the CSV files.
"""

from __future__ import annotations

import json
import os
import sys
from array import array
from pathlib import Path
from typing import Any, Dict, Iterator, List

from .blocks import Block, Blocks, blocks_of, bytes_of, on_disk
from .case import Case, Names
from .faults import Fault, Faults
from .files import FIGURES, Contract
from .interface import LIMIT, QUANTITY
from .sheet import unread
from .writing import Content, write_files

_FORM = 1  # of the three files
KEY = "large.json"
_NAMED = ("nodes", "constraints", "contracts")


def is_dense(folder: Path) -> bool:
    """Whether a folder is taken as such a case: one beside CSV files is left alone, as bin files are."""
    csv = ("constraints.csv", "factors.csv", "book.csv")
    return os.path.lexists(folder / KEY) and not any(os.path.lexists(folder / name) for name in csv)


def _pieces(blocks: List[Block]) -> Iterator[bytes]:
    return (bytes_of(piece) for block in blocks for piece in block.pieces)


def _cells(book: List[Contract]) -> bytes:
    cells = array("I", [figure for contract in book for figure in contract])
    if sys.byteorder == "big":
        cells.byteswap()
    return cells.tobytes()


def dense_files(case: Case) -> Dict[str, Content]:
    """The three files of a case."""
    names = case.names
    blocks = case.blocks or blocks_of(case.limits, case.factors, len(names.nodes))
    lengths = [
        [len(piece) if isinstance(piece, bytes) else piece.length for piece in block.pieces]
        for block in blocks.blocks
    ]
    about = {
        "form": _FORM,
        "limits": list(case.limits),
        "pieces": lengths,
        "nodes": names.nodes,
        "constraints": names.constraints,
        "contracts": names.contracts,
        "holders": {str(number): name for number, name in sorted(names.holders.items())},
    }
    return {
        "grid.blocks": lambda: _pieces(blocks.blocks),
        "book.cells": _cells(case.book),
        KEY: (json.dumps(about) + "\n").encode(),
    }


def write_dense(case: Case, folder: Path, force: bool) -> List[str]:
    """Packs a large case into a folder, reads it back, and gives the files' names."""
    files = dense_files(case)

    def same(staged: Path) -> None:
        back = read_dense(staged)
        kept = (back.names, back.limits, back.book) == (case.names, case.limits, case.book)
        blocks = case.blocks or blocks_of(case.limits, case.factors, len(case.names.nodes))
        pieces = zip(_pieces(blocks.blocks), _pieces(_blocks(back).blocks))
        if not kept or not all(one == other for one, other in pieces):
            raise OSError("it does not read back as the same case")

    write_files(folder, files, force, whole=same)
    return list(files)


def _blocks(case: Case) -> Blocks:
    if case.blocks is None:
        raise AssertionError("a dense case has blocks")
    return case.blocks


def _broken(name: str, text: str) -> Faults:
    return Faults([Fault(name, 0, "", f"{text}: it is not as crr pack wrote it; pack the CSV files again")])


def _about(folder: Path) -> Dict[str, Any]:
    try:
        about = json.loads((folder / KEY).read_bytes())
        if about["form"] == _FORM:
            return dict(about)
    except OSError as error:
        raise Faults([Fault(KEY, 0, "", unread(folder / KEY, error))]) from None
    except (ValueError, KeyError, TypeError):
        pass
    raise _broken(KEY, "it can't be read")


def _book(folder: Path, nodes: int, contracts: int) -> List[Contract]:
    cells = array("I")
    try:
        cells.frombytes((folder / "book.cells").read_bytes())
    except OSError as error:
        raise Faults([Fault("book.cells", 0, "", unread(folder / "book.cells", error))]) from None
    except ValueError:
        raise _broken("book.cells", "a part of a number at its end") from None
    if sys.byteorder == "big":
        cells.byteswap()
    if len(cells) != FIGURES * contracts:
        raise _broken("book.cells", f"{len(cells):,} numbers for {contracts:,} contracts")
    book = list(map(Contract._make, zip(*[iter(cells)] * FIGURES)))
    for number, (kind, period, _, source, sink, quantity) in enumerate(book):
        if max(kind, period) > 1 or max(source, sink) >= nodes or not 1 <= quantity <= QUANTITY.high:
            raise _broken("book.cells", f"contract {number:,} is none")
    return book


def read_dense(folder: Path) -> Case:
    """The case of such a folder, its factors left where they are."""
    about = _about(folder)
    try:
        limits = array("Q", about["limits"])
        holders = {int(number): str(name) for number, name in about["holders"].items()}
        nodes, constraints, contracts = (list(map(str, about[key])) for key in _NAMED)
        names = Names(nodes, constraints, contracts, holders)
        blocks = on_disk(str(folder / "grid.blocks"), about["pieces"], limits, len(names.nodes))
    except (ValueError, KeyError, TypeError, AttributeError, OverflowError):
        raise _broken(KEY, "a part of it is missing or of another kind") from None
    if len(limits) != len(names.constraints) or max(limits, default=0) > LIMIT.high:
        raise _broken(KEY, "limits that don't go with the constraints")
    blocks.check(folder / "grid.blocks")
    book = _book(folder, len(names.nodes), len(names.contracts))
    return Case(names, limits, array("q"), book, is_csv=False, blocks=blocks)
