"""The factors of a grid of any size: blocks of at most 64 constraints, each in pieces of at most 1,000 nodes,
and each piece a grid's file as the library writes and reads it. That is 2.25 bytes for a factor. Beyond the
memory that is asked for, pieces go to a temporary file."""

from __future__ import annotations

import os
import tempfile
from array import array
from ctypes import c_uint64
from pathlib import Path
from typing import Any, Dict, Iterable, Iterator, List, NamedTuple, Sequence, Tuple, Union

from .faults import Fault, raise_any
from .files import Grid, write_grid
from .interface import MAX_CONSTRAINTS, WIDE
from .native import Entry, Lent, zeros

PIECE_NODES = 1000
MEMORY = 10**9  # bytes of pieces that are held where nothing is asked for

_read_grid = Entry("crr_read_grid")


class Place(NamedTuple):
    """Where a piece stands in a file that whoever needs it can read."""

    path: str
    offset: int
    length: int


Piece = Union[bytes, Place]


def bytes_of(piece: Piece) -> bytes:
    """A piece's bytes, read where they stand."""
    if isinstance(piece, bytes):
        return piece
    with open(piece.path, "rb") as file:
        file.seek(piece.offset)
        return file.read(piece.length)


class Block(NamedTuple):
    """Constraints from a first one on: their limits, and their factors in pieces of the nodes. All of it can
    be handed to another process."""

    first: int
    limits: "array[int]"
    pieces: List[Piece]

    def tables(self) -> Iterator["array[int]"]:
        """The factors of each piece's nodes, as a grid's table has them."""
        limits, nodes, constraints, form = zeros("Q", MAX_CONSTRAINTS), c_uint64(), c_uint64(), c_uint64()
        for piece in self.pieces:
            cells = zeros("q", PIECE_NODES * len(self.limits))
            places = (Lent(limits, "Q", True), Lent(cells, "q", True))
            name = "" if isinstance(piece, bytes) else piece.path
            _read_grid(bytes_of(piece), *places, nodes, constraints, form, file=name)
            if constraints.value != len(self.limits):
                raise_any([Fault(name, 0, "", "a piece of another block: pack the CSV files again")])
            yield cells[: nodes.value * len(self.limits)]

    def rows(self) -> List[bytes]:
        """The factors of each node, eight bytes each."""
        width, rows = 8 * len(self.limits), []
        for table in self.tables():
            cells = table.tobytes()
            rows += [cells[at : at + width] for at in range(0, len(cells), width)]
        return rows

    def columns(self, numbers: Iterable[int]) -> Dict[int, "array[int]"]:
        """The factors of all nodes on some of the block's constraints, by their numbers in the whole grid."""
        table = array("q")
        for cells in self.tables():
            table.extend(cells)
        return {k: table[k - self.first :: len(self.limits)] for k in numbers}


class Blocks:
    """A grid's factors while they are read, node by node, and then."""

    def __init__(self, limits: Sequence[int], memory: int = MEMORY) -> None:
        starts = range(0, len(limits), MAX_CONSTRAINTS)
        self.blocks = [Block(at, array("Q", limits[at : at + MAX_CONSTRAINTS]), []) for at in starts]
        self.constraints, self.nodes = len(limits), 0
        self.held = self.spilled = 0  # bytes
        self._memory = memory
        self._file: Any = None
        self._rows = [array("q") for _ in self.blocks]

    def add(self, row: Sequence[int]) -> None:
        """Adds a node's factors, one for each constraint."""
        for block, cells in zip(self.blocks, self._rows):
            cells.extend(row[block.first : block.first + MAX_CONSTRAINTS])
        self.nodes += 1
        if self.nodes % PIECE_NODES == 0:
            self.close()

    def close(self) -> None:
        """Makes pieces of the nodes that have none yet. A node may still be added."""
        nodes = self.nodes % PIECE_NODES or (PIECE_NODES if self.nodes else 0)
        for block, cells in zip(self.blocks, self._rows):
            if cells:
                file = write_grid(Grid(nodes, len(block.limits), block.limits, cells, WIDE))
                block.pieces.append(self._kept(file))
                del cells[:]

    def _kept(self, file: bytes) -> Piece:
        if self.held + len(file) <= self._memory:
            self.held += len(file)
            return file
        if self._file is None:
            self._file = tempfile.NamedTemporaryFile(prefix="crr-factors-")
        place = Place(self._file.name, self.spilled, len(file))
        self._file.write(file)
        self._file.flush()
        self.spilled += len(file)
        return place

    def columns(self, numbers: Iterable[int]) -> Dict[int, "array[int]"]:
        """The factors of all nodes on some constraints; each block of them is read once."""
        of_block: Dict[int, List[int]] = {}
        for k in numbers:
            of_block.setdefault(k // MAX_CONSTRAINTS, []).append(k)
        columns: Dict[int, "array[int]"] = {}
        for at, some in of_block.items():
            columns.update(self.blocks[at].columns(some))
        return columns

    def check(self, path: Path) -> None:
        """A fault where a file is not as long as the pieces that should stand in it."""
        pieces = [piece for block in self.blocks for piece in block.pieces]
        expected = sum(piece.length for piece in pieces if isinstance(piece, Place))
        size = os.stat(path).st_size
        short = any(len(block.pieces) != -(-self.nodes // PIECE_NODES) for block in self.blocks)
        if size != expected or short:
            text = f"{size:,} bytes where {expected:,} are needed: pack the CSV files again"
            raise_any([Fault(path.name, 0, "", text)])

    def __reduce__(self) -> Tuple[Any, ...]:
        """For another process: pieces in the temporary file by their places."""
        return (_again, (self.blocks, self.nodes, self.constraints, self.held, self.spilled))


def _again(blocks: List[Block], nodes: int, constraints: int, held: int, spilled: int) -> Blocks:
    again = Blocks([])
    again.blocks, again.nodes, again.constraints = blocks, nodes, constraints
    again.held, again.spilled = held, spilled
    return again


def blocks_of(limits: Sequence[int], factors: "array[int]", nodes: int, memory: int = MEMORY) -> Blocks:
    """The blocks of a grid's whole table."""
    made, count = Blocks(limits, memory), len(limits)
    for node in range(nodes):
        made.add(factors[node * count : (node + 1) * count])
    made.close()
    return made


def on_disk(path: str, lengths: Sequence[Sequence[int]], limits: Sequence[int], nodes: int) -> Blocks:
    """The blocks of a file in which their pieces stand one behind the other, block by block."""
    made, offset = Blocks(limits), 0
    for block, of_block in zip(made.blocks, lengths):
        for length in of_block:
            block.pieces.append(Place(os.path.abspath(path), offset, length))
            offset += length
    made.nodes = nodes
    return made
